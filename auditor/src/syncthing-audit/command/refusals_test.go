package command

import (
	"fmt"
	"go/ast"
	"go/token"
	"io"
	"io/fs"
	"os"
	"path/filepath"
	"regexp"
	"sort"
	"strconv"
	"strings"
	"testing"

	"github.com/syncthing/syncthing/lib/protocol"
	"syncthing-audit/choice"
	"syncthing-audit/exit"
	"syncthing-audit/exported"
	"syncthing-audit/fixture"
	"syncthing-audit/part"
	"syncthing-audit/signature"
)

// refusalsOfTheSource gives all texts of the program that begin with 'refused: '.
func refusalsOfTheSource(t *testing.T) []string {
	found := map[string]bool{}
	inSources(t, func(path string, node ast.Node) {
		if literal, is := node.(*ast.BasicLit); is && literal.Kind == token.STRING {
			if text, err := strconv.Unquote(literal.Value); err == nil && strings.HasPrefix(text, "refused: ") {
				found[text] = true
			}
		}
	})
	var all []string
	for text := range found {
		all = append(all, text)
	}
	sort.Strings(all)
	return all
}

// aRefusal has the program refuse something. It gives the command's words; what it makes for that stands in the room.
type aRefusal struct {
	text string // of the source, as far as it goes without what differs
	told string // what is told, too
	way  func(t *testing.T, room string) []string
}

// twoParts writes the parts of two stopped devices, changed.
func twoParts(t *testing.T, room string, change func(part, other *hostile)) []string {
	parts, other := stoppedParts(1), stoppedParts(2)
	change(parts[0], other[0])
	return append(writtenParts(t, filepath.Join(room, "1"), parts), writtenParts(t, filepath.Join(room, "2"), other)...)
}

func unchangedParts(*hostile, *hostile) {}

// twoLooks writes both looks at two devices, changed: those of the first one stand first.
func twoLooks(t *testing.T, room string, change func(first, second *hostile)) []string {
	parts, other := runningParts(1), runningParts(2)
	change(parts[0], parts[1])
	return append(writtenParts(t, filepath.Join(room, "1"), parts), writtenParts(t, filepath.Join(room, "2"), other)...)
}

func checking(paths ...string) []string {
	return append([]string{"check", "--leave-out", strings.Join(part.Kinds, ",")}, paths...)
}

// with makes a file, and gives its path.
func with(t *testing.T, path, text string) string {
	if err := os.MkdirAll(filepath.Dir(path), 0o700); err != nil {
		t.Fatal(err)
	}
	if err := os.WriteFile(path, []byte(text), 0o600); err != nil {
		t.Fatal(err)
	}
	return path
}

// refusals are those that the program can be brought to here.
var refusals = []aRefusal{
	{"refused: %s and %s are both of %s: give one of them", "", func(t *testing.T, room string) []string {
		return checking(twoParts(t, room, func(_, other *hostile) { other.Head.Device = idOf(1) })...)
	}},
	{"refused: %s and %s are of one device number, %d", "", func(t *testing.T, room string) []string {
		return checking(twoParts(t, room, func(_, other *hostile) { other.Head.Device = protocol.DeviceID{7: 1, 8: 1}.String() })...)
	}},
	{"refused: %s has %s, and %s has %s: make all parts with the same %s", "--names", func(t *testing.T, room string) []string {
		return checking(twoParts(t, room, func(part, _ *hostile) { part.Head.Names = choice.Names{Prefix: "b"} })...)
	}},
	{"refused: %s has %s: make it anew with %s", "", func(t *testing.T, room string) []string {
		return append(checking(twoParts(t, room, unchangedParts)...), "--names", "x")
	}},
	{"refused: folder %s, %s: its directory%s is that of %s for folder %s, too. A copied home's ", "", func(t *testing.T, room string) []string {
		return checking(twoParts(t, room, func(part, other *hostile) { other.Head.Folders[0].Directory = part.Head.Folders[0].Directory })...)
	}},
	{"refused: folder %s, %s: its index changed while it was read (sequence %d, then %d): make the part anew", "", func(t *testing.T, room string) []string {
		return checking(twoParts(t, room, func(part, _ *hostile) { part.Lines[len(part.Lines)-1].End.Max = 98 })...)
	}},
	{"refused: %w", "no folder here has the id pics", func(t *testing.T, room string) []string {
		return append(checking(twoParts(t, room, unchangedParts)...), "--folder", "pics")
	}},
	{"refused: no part has folder %s, which %s has: make the parts without --folder, or with it for this one, too", "", func(t *testing.T, room string) []string {
		return append(checking(twoParts(t, room, func(part, _ *hostile) { part.Head.Others[0].Away = "" })...), "--folder", "music")
	}},
	{"refused: no part has folder %s; of %s: %s", "it is paused there", func(t *testing.T, room string) []string {
		return append(checking(twoParts(t, room, unchangedParts)...), "--folder", "music")
	}},
	{"refused: %s is of two looks, as at a running device, and %s of one: make all parts in the same way", "", func(t *testing.T, room string) []string {
		return checking(append(writtenParts(t, filepath.Join(room, "1"), runningParts(1)), writtenParts(t, filepath.Join(room, "2"), stoppedParts(2))...)...)
	}},
	{"refused: one of %s and %s is made by two looks at the device itself, and the other one over the wire: observe both, or stop the ", "", func(t *testing.T, room string) []string {
		return checking(append(writtenParts(t, filepath.Join(room, "1"), runningParts(1)), writtenParts(t, filepath.Join(room, "2"), observedParts(2))...)...)
	}},
	{"refused: %s and %s are of two runs of 'observe', which may be of two moments: observe all in one run", "", func(t *testing.T, room string) []string {
		other := observedParts(2)
		id := strings.Repeat("1", 32)
		other[0].Head.Look.ID, other[0].Head.Look.After = id, map[string]string{idOf(1): id, idOf(2): id}
		return checking(append(writtenParts(t, filepath.Join(room, "1"), observedParts(1)), writtenParts(t, filepath.Join(room, "2"), other)...)...)
	}},
	{"refused: it is of the same look at the same device as %s: give one of them", "", func(t *testing.T, room string) []string {
		paths := twoLooks(t, room, unchangedParts)
		return checking(append(paths, paths[0])...)
	}},
	{"refused: %s is of a first look, and the second one at that device isn't given: 'part --end' makes it", "", func(t *testing.T, room string) []string {
		paths := twoLooks(t, room, unchangedParts)
		return checking(paths[0], paths[2], paths[3])
	}},
	{"refused: %s is of a second look, and the first one at that device isn't given", "", func(t *testing.T, room string) []string { return checking(twoLooks(t, room, unchangedParts)[1:]...) }},
	{"refused: %s, %s: %w", "at another home", func(t *testing.T, room string) []string {
		return checking(twoLooks(t, room, func(_, second *hostile) { second.Head.Look.Home = "copy" })...)
	}},
	{"refused: there is nothing to audit: no name of any folder is left", "", func(t *testing.T, room string) []string {
		return checking(twoParts(t, room, func(part, other *hostile) { part.Lines, other.Lines = linesOf(), linesOf() })...)
	}},
	{"refused: there is nothing to audit: all of %d names are in motion: look again", "", func(t *testing.T, room string) []string {
		moved := &part.Name{Name: "a", Moved: []string{part.MovedDisk}}
		parts, other := runningParts(1), runningParts(2)
		for _, look := range append(parts, other...) {
			look.Lines = linesOf(moved)
		}
		return checking(append(writtenParts(t, filepath.Join(room, "1"), parts), writtenParts(t, filepath.Join(room, "2"), other)...)...)
	}},
	{"refused: %s", "no name", func(t *testing.T, room string) []string {
		return checking(twoParts(t, room, func(part, other *hostile) {
			part.Lines, other.Lines = linesOf(), linesOf()
			part.Head.Names.Prefix, other.Head.Names.Prefix = "zz", "zz"
		})...)
	}},
	{"refused: %s is no directory: name one", "", func(t *testing.T, room string) []string {
		return append([]string{"export", "--into", with(t, filepath.Join(room, "file"), "")}, twoParts(t, room, unchangedParts)...)
	}},
	{"refused: %s is a symlink to nothing: name a directory", "", func(t *testing.T, room string) []string {
		return append([]string{"export", "--into", linkTo(t, room, "nowhere")}, twoParts(t, room, unchangedParts)...)
	}},
	{"refused: something is in %s: name another directory for the scripts", "", func(t *testing.T, room string) []string {
		return append(checking(twoParts(t, room, unchangedParts)...), "--script", room)
	}},
	{"refused: %w: name another directory for the scripts", "", func(t *testing.T, room string) []string {
		parts := twoParts(t, room, unchangedParts)
		return append(checking(parts...), "--script", parts[0])
	}},
	{"refused: %s has an earlier export (%s): name another directory, or take that away", "", func(t *testing.T, room string) []string {
		return append([]string{"export", "--into", filepath.Dir(with(t, filepath.Join(room, "into/cut-0001.reply"), ""))}, twoParts(t, room, unchangedParts)...)
	}},
	{"refused: %s would be in the Syncthing folder %s (%s is there), %s", "", func(t *testing.T, room string) []string {
		marked := with(t, filepath.Join(room, "folder/.stfolder/x"), "")
		return append([]string{"export", "--into", filepath.Join(filepath.Dir(filepath.Dir(marked)), "into")}, twoParts(t, room, unchangedParts)...)
	}},
	{"refused: 'export --into' fills a directory for 'sum': %w", "", func(t *testing.T, room string) []string { return []string{"sum", room} }},
	{"refused: %s isn't what 'export' writes: %w", "", func(t *testing.T, room string) []string {
		return []string{"sum", filepath.Dir(with(t, filepath.Join(room, "of/"+exported.RestName), "x"))}
	}},
	{"refused: a document has no answer yet: %w", "", func(t *testing.T, room string) []string {
		of := exportedPart(t)
		if err := os.Remove(filepath.Join(of, "cut-0001.reply")); err != nil {
			t.Fatal(err)
		}
		return []string{"sum", of}
	}},
	{"refused: %s: %w", "cut-0001.reply", func(t *testing.T, _ string) []string {
		of := exportedPart(t)
		with(t, filepath.Join(of, "cut-0001.reply"), "maybe\n")
		return []string{"sum", of}
	}},
	{"refused: folder %s: syncaudit didn't answer to all of it", "docs", func(t *testing.T, _ string) []string {
		of := exportedPart(t)
		path := filepath.Join(of, exported.RestName)
		text, err := os.ReadFile(path)
		if err != nil {
			t.Fatal(err)
		}
		with(t, path, regexp.MustCompile(`"Documents":\[.*?\]`).ReplaceAllString(string(text), `"Documents":[]`))
		return []string{"sum", of}
	}},
	{"refused: there is no history: %w", "", func(t *testing.T, room string) []string {
		backup := filepath.Dir(with(t, filepath.Join(room, "backup/x"), ""))
		return []string{"find", "--history", backup, "--folder", "docs", "a", room}
	}},
	{"refused: the history has no bytes of %s in %s", "", func(t *testing.T, room string) []string {
		return []string{"find", "--history", emptyHistory(t), "--folder", "docs", "a", room}
	}},
	{"refused: the allowed signers %s: %w", "", func(t *testing.T, room string) []string {
		return append(checking(twoParts(t, room, unchangedParts)...), "--allowed-signers", filepath.Join(room, "none"))
	}},
	{"refused: it is no file, and has no signature beside it", "", func(t *testing.T, room string) []string {
		return append(checking("/dev/null"), "--allowed-signers", with(t, filepath.Join(room, "signers"), "x\n"))
	}},
	{"refused: it isn't signed, so anybody may have made it: there is no %s. 'part --sign KEY' makes both files, and both are to be ", "", func(t *testing.T, room string) []string {
		return append(checking(twoParts(t, room, unchangedParts)...), "--allowed-signers", with(t, filepath.Join(room, "signers"), "x\n"))
	}},
	{"refused: its signature %s can't be read: %w", "", func(t *testing.T, room string) []string {
		paths := twoParts(t, room, unchangedParts)
		with(t, paths[0]+signature.Suffix+"/x", "")
		return append(checking(paths...), "--allowed-signers", with(t, filepath.Join(room, "signers"), "x\n"))
	}},
	{"refused: it isn't known to be by device %s, whose part it says it is: %w", "", func(t *testing.T, room string) []string {
		paths := twoParts(t, room, unchangedParts)
		with(t, paths[0]+signature.Suffix, "x")
		return append(checking(paths...), "--allowed-signers", with(t, filepath.Join(room, "signers"), "x\n"))
	}},
}

// Nothing is left after a refusal: no file in the temporary directory, nothing in the directories that were named, no open file.
func TestNothingIsLeftAfterARefusal(t *testing.T) {
	fixture.UseAuditor(t)
	for _, refusal := range append(refusals, ofAHome...) {
		room, temporary := t.TempDir(), t.TempDir()
		words := refusal.way(t, room)
		t.Setenv("TMPDIR", temporary)
		opened, before := openedNow(t), allBelow(t, room)
		var output, log strings.Builder
		status := Run(words, &output, &log)
		fixed, _, _ := strings.Cut(refusal.text, "%")
		if status != exit.Refused || !strings.Contains(log.String(), fixed) || !strings.Contains(log.String(), refusal.told) {
			t.Errorf("%s: status %d:\n%s", refusal.text, status, log.String())
		}
		if left := allBelow(t, temporary); left != "" {
			t.Errorf("%s: left in the temporary directory: %s", refusal.text, left)
		}
		if after := allBelow(t, room); after != before {
			t.Errorf("%s: there were\n%s, and then\n%s", refusal.text, before, after)
		}
		if left := openedSince(t, opened); len(left) > 0 {
			t.Errorf("%s: open since then are %q", refusal.text, left)
		}
	}
}

// A path below a file is told, whichever flag has it.
func TestAPathBelowAFile(t *testing.T) {
	fixture.UseAuditor(t)
	room := t.TempDir()
	below := filepath.Join(with(t, filepath.Join(room, "file"), ""), "x")
	parts := twoParts(t, room, unchangedParts)
	for _, words := range [][]string{
		append(makingPart(homeOf(t, "x", nil), filepath.Join(room, "a.part")), "--sign", below),
		makingPart(homeOf(t, "x", nil), below),
		append([]string{"export", "--into", below}, parts...),
		append(checking(parts...), "--history", below),
	} {
		var log strings.Builder
		if status := Run(words, io.Discard, &log); status != exit.Refused && status != exit.Fault || !strings.Contains(log.String(), filepath.Dir(below)) {
			t.Errorf("%q: status %d, %s", words, status, log.String())
		}
	}
}

// openedSince tells which files are open that weren't, each as often as it is. What an earlier test left may be closed meanwhile.
func openedSince(t *testing.T, before map[string]int) []string {
	var since []string
	for path, times := range openedNow(t) {
		for ; times > before[path]; times-- {
			since = append(since, path)
		}
	}
	return since
}

// openedNow tells which files are open, and how often each is.
func openedNow(t *testing.T) map[string]int {
	opened := fixture.Opened(t)
	for path := range opened {
		if strings.HasPrefix(path, "/proc/") || strings.HasPrefix(path, "anon_inode:") {
			delete(opened, path)
		}
	}
	return opened
}

// allBelow tells all that stands below a directory, with sizes.
func allBelow(t *testing.T, directory string) string {
	told := ""
	err := filepath.WalkDir(directory, func(path string, entry fs.DirEntry, err error) error {
		if err != nil || path == directory {
			return err
		}
		about, err := entry.Info()
		if err == nil {
			told += fmt.Sprintln(path, about.Mode(), about.Size())
		}
		return err
	})
	if err != nil {
		t.Fatal(err)
	}
	return told
}

// Each refusal of the source is in one of the two lists, so that a new one isn't forgotten.
func TestEachRefusalOfTheSourceIsTried(t *testing.T) {
	isTried := map[string]bool{}
	for _, refusal := range append(refusals, ofAHome...) {
		isTried[refusal.text] = true
	}
	isElsewhere := map[string]bool{}
	for _, texts := range elsewhere {
		for _, text := range texts {
			isElsewhere[text] = true
		}
	}
	for _, text := range refusalsOfTheSource(t) {
		if isTried[text] == isElsewhere[text] {
			t.Errorf("%q is to stand in refusals, with how the program comes to it, or in elsewhere, with why not", text)
		}
		delete(isTried, text)
		delete(isElsewhere, text)
	}
	for text := range isElsewhere {
		t.Errorf("%q is elsewhere, and isn't in the source", text)
	}
	for text := range isTried {
		t.Errorf("%q is tried, and isn't in the source", text)
	}
}
