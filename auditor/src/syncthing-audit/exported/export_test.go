package exported

import (
	"crypto/sha256"
	"errors"
	"fmt"
	"io"
	"os"
	"path/filepath"
	"strings"
	"testing"

	"github.com/syncthing/syncthing/lib/protocol"
	"syncthing-audit/choice"
	"syncthing-audit/commandline"
	"syncthing-audit/device"
	"syncthing-audit/exit"
	"syncthing-audit/finding"
	"syncthing-audit/fixture"
	"syncthing-audit/inputs"
	"syncthing-audit/rows"
	"syncthing-audit/spill"
)

// exportOf exports the parts of so many devices into a directory, or to an output where that is "", and gives what is told.
func exportOf(t *testing.T, count int, names choice.Names, into string, output io.Writer) (int, string, error) {
	asked := commandline.Options{Into: into, LeaveOut: map[string]bool{}, Jobs: 1}
	for number := 1; number <= count; number++ {
		asked.Parts = append(asked.Parts, fixture.Part(t, protocol.DeviceID{7: byte(number)}, names))
	}
	var log strings.Builder
	status, err := Run(asked, output, &log)
	return status, log.String(), err
}

// answer writes the answer to an exported document.
func answer(t *testing.T, directory, name, text string) {
	if err := os.WriteFile(filepath.Join(directory, name), []byte(text), 0o600); err != nil {
		t.Fatal(err)
	}
}

// reply writes the answer to an exported document, behind the sum of that.
func reply(t *testing.T, directory, document, text string) {
	written, err := os.ReadFile(filepath.Join(directory, document+".json"))
	if err != nil {
		t.Fatal(err)
	}
	answer(t, directory, document+".reply", fmt.Sprintf("%x  -\n%s", sha256.Sum256(written), text))
}

// Answers to a document of one name.
const (
	counts    = "folder docs: 1 names, 0 deleted, 1 devices"
	pairs     = counts + ", 0 pairs not yet at the winner\n"
	settled   = "settled\n" + counts + "\nsettled\nfirm\n" + counts + "\nconverging\n" + pairs
	unsettled = "not settled: LocalOnly docs a on 2\n" + counts + "\nLocalOnly docs a on 2\nnot firm: LocalOnly docs a on 2\n" + counts + "\nnot converging: LocalOnly docs a on 2\n" + pairs
)

// What is exported, of all names or of one slice, is summed up as it was answered, with all that no document says.
func TestAnExportAndItsSum(t *testing.T) {
	for _, names := range []choice.Names{{}, {Slice: 3, Slices: 7}} {
		directory := filepath.Join(t.TempDir(), "above", "documents")
		before := fixture.CountOpened(t, fixture.Any)
		status, log, err := exportOf(t, 2, names, directory, io.Discard)
		if status != exit.Done || err != nil || !strings.HasSuffix(log, "syncthing-audit: 2 documents in "+directory+"\n") || strings.Count(log, "syncthing-audit: device ") != 2 ||
			strings.Count(log, "not shared: folder docs on ") != 0 && names.IsAll() || !strings.Contains(log, "folder docs on ") {
			t.Fatalf("%d, %v, %s", status, err, log)
		}
		text, err := os.ReadFile(filepath.Join(directory, RestName))
		if err != nil || !strings.HasPrefix(string(text), `{"Found":{`) {
			t.Errorf("%v, %.40s", err, text)
		}
		reply(t, directory, "cut-0001", settled)
		if _, err := SumOf(directory); err == nil || !strings.HasPrefix(err.Error(), "refused: a document has no answer yet: ") {
			t.Errorf("a sum of one of two answers: %v", err)
		}
		reply(t, directory, "cut-0002", unsettled)
		sum, err := SumOf(directory)
		if err != nil {
			t.Fatal(err)
		}
		if _, first := sum.First(); !sum.IsSum || sum.IsOfSlice() == names.IsAll() || len(sum.Folders) != 2 || len(sum.Devices) != 2 || first == nil || first.Reason != "LocalOnly" || first.Name != "a" {
			t.Errorf("%+v", sum)
		}
		for _, device := range sum.Devices {
			if device.IsSilent {
				t.Errorf("%+v", device)
			}
		}
		for place, folder := range sum.Folders {
			if folder.HasFailures() != (place == 1) || folder.Own == "" {
				t.Errorf("%d: %+v", place, folder)
			}
		}
		if after := fixture.CountOpened(t, fixture.Any); after > before {
			t.Errorf("%d files were open, and %d are", before, after)
		}
	}
}

// What isn't as an export left it is refused with its file, and with why.
func TestWhatHasNoSum(t *testing.T) {
	for what, row := range map[string]struct {
		name   string
		change func(text string) string
		told   string
	}{
		"nothing":                     {RestName, func(string) string { return "" }, "rest.jsonl isn't what 'export' writes: EOF"},
		"no JSON":                     {RestName, func(text string) string { return text[1:] }, "rest.jsonl isn't what 'export' writes: "},
		"no answer":                   {RestName, func(string) string { return "{}\n" }, "rest.jsonl isn't what 'export' writes: a program of 0.17 or before made it: make the export anew"},
		"the first line alone":        {RestName, func(text string) string { return strings.SplitAfter(text, "\n")[0] }, "rest.jsonl isn't what 'export' writes: unexpected EOF"},
		"an export of before":         {RestName, func(text string) string { return strings.Replace(text, `"Sum":"`, `"Was":"`, 1) }, "rest.jsonl isn't what 'export' writes: a program of 0.21 or before made it: make the export anew"},
		"an answer to no document":    {"cut-0001.reply", func(string) string { return settled }, "cut-0001.reply: it doesn't begin with the SHA-256 of its document, as 'sha256sum < cut-0001.json' writes it: it may be the answer to another one"},
		"an answer to another one":    {"cut-0001.reply", func(text string) string { return fmt.Sprintf("%x%s", sha256.Sum256([]byte("x")), text[64:]) }, "cut-0001.reply: it doesn't begin with the SHA-256 of its document"},
		"an answer of a sum alone":    {"cut-0001.reply", func(text string) string { return text[:67] }, "cut-0001.reply: "},
		"an answer of no syncaudit":   {"cut-0001.reply", func(string) string { return "x" }, "cut-0001.reply: "},
		"an answer to another folder": {"cut-0001.reply", func(text string) string { return strings.ReplaceAll(text, "docs", "pics") }, "cut-0001.reply: "},
	} {
		directory := t.TempDir()
		if _, _, err := exportOf(t, 1, choice.Names{}, directory, io.Discard); err != nil {
			t.Fatal(err)
		}
		reply(t, directory, "cut-0001", settled)
		path := filepath.Join(directory, row.name)
		text, err := os.ReadFile(path)
		if err != nil {
			t.Fatal(err)
		}
		answer(t, directory, row.name, row.change(string(text)))
		before := fixture.CountOpened(t, fixture.Any)
		if sum, err := SumOf(directory); sum != nil || err == nil || !strings.HasPrefix(err.Error(), "refused: "+filepath.Join(directory, row.told)) {
			t.Errorf("%s: %+v, %v", what, sum, err)
		}
		if after := fixture.CountOpened(t, fixture.Any); after > before {
			t.Errorf("%s: %d files were open, and %d are", what, before, after)
		}
	}
	if _, err := SumOf(t.TempDir()); err == nil || !strings.HasPrefix(err.Error(), "refused: 'export --into' fills a directory for 'sum': open ") {
		t.Errorf("a directory without an export: %v", err)
	}
}

// One document goes to an output where no directory is named; several don't, and nothing of them is written.
func TestAnExportToAnOutput(t *testing.T) {
	var output strings.Builder
	status, _, err := exportOf(t, 1, choice.Names{}, "", &output)
	directory := t.TempDir()
	if _, _, failed := exportOf(t, 1, choice.Names{}, directory, io.Discard); failed != nil {
		t.Fatal(failed)
	}
	text, unread := os.ReadFile(filepath.Join(directory, "cut-0001.json"))
	if status != exit.Done || err != nil || unread != nil || output.String() != string(text) || len(text) == 0 {
		t.Errorf("%d, %v: %s", status, err, output.String())
	}
	output.Reset()
	if status, _, err := exportOf(t, 2, choice.Names{}, "", &output); !errors.Is(err, errSeveral) || status != 0 || output.Len() > 0 {
		t.Errorf("%v: %s", err, output.String())
	}
	if _, _, err := exportOf(t, 1, choice.Names{}, "", &fixture.Cramped{}); exit.Of(err, io.Discard, io.Discard) != exit.Fault {
		t.Error(err)
	}
}

// Documents aren't written where an export or something else is, nor into a folder of Syncthing, by --into or by a shell. What stands there stays.
func TestWhereNoExportGoes(t *testing.T) {
	for what, row := range map[string]struct {
		prepare func(path string) error
		told    string
	}{
		"nothing":            {func(string) error { return nil }, ""},
		"an empty directory": {func(path string) error { return os.Mkdir(path, 0o700) }, ""},
		"a file":             {func(path string) error { return os.WriteFile(path, nil, 0o600) }, "is no directory: name one"},
		"a symlink to it":    {func(path string) error { return os.Symlink(os.TempDir(), path) }, ""},
		"a symlink to none":  {func(path string) error { return os.Symlink("nowhere", path) }, "is a symlink to nothing: name a directory"},
		"below a file":       {func(path string) error { return os.WriteFile(filepath.Dir(path)+"/x", nil, 0o600) }, ""},
		"a document":         {within("cut-0007.json"), "has an earlier export (cut-0007.json): name another directory, or take that away"},
		"an answer":          {within("cut-0001.reply"), "has an earlier export (cut-0001.reply)"},
		"the rest":           {within(RestName), "has an earlier export (" + RestName + ")"},
		"something else":     {within("other.json"), ""},
		"a folder":           {within(".stfolder"), "would be in the Syncthing folder "},
	} {
		path := filepath.Join(t.TempDir(), "[a]*?\\")
		if err := row.prepare(path); err != nil {
			t.Fatal(err)
		}
		err := checkPlace(&outlet{directory: path}, &inputs.Inputs{})
		if (err == nil) != (row.told == "") || err != nil && (!strings.Contains(err.Error(), row.told) || !strings.HasPrefix(err.Error(), "refused: ")) {
			t.Errorf("%s: %v", what, err)
		}
		if row.told == "" {
			continue
		}
		if status, _, err := exportOf(t, 1, choice.Names{}, path, io.Discard); err == nil || status != 0 || !strings.Contains(err.Error(), row.told) {
			t.Errorf("%s: an export is told as %v", what, err)
		}
		if made, _ := filepath.Glob(filepath.Join(globbed(path), "cut-0001.json")); len(made) > 0 {
			t.Errorf("%s: %q is written", what, made)
		}
	}
	for _, isFolder := range []bool{false, true} {
		room := t.TempDir()
		if isFolder {
			if err := within(".stfolder")(filepath.Join(room, ".")); err != nil {
				t.Fatal(err)
			}
		}
		file, err := os.Create(filepath.Join(room, "by-shell"))
		if err != nil {
			t.Fatal(err)
		}
		_, _, err = exportOf(t, 1, choice.Names{}, "", file)
		about, unseen := file.Stat()
		file.Close()
		if (err != nil) != isFolder || err != nil && !strings.HasSuffix(err.Error(), "by-shell is there already, since the shell made it: take it away") || unseen != nil || (about.Size() > 0) == isFolder {
			t.Errorf("a shell writes into a folder: %v, %v", isFolder, err)
		}
	}
}

// within makes a directory with a file in it.
func within(name string) func(path string) error {
	return func(path string) error {
		err := os.MkdirAll(path, 0o700)
		if err == nil {
			err = os.WriteFile(filepath.Join(path, name), nil, 0o600)
		}
		return err
	}
}

// Parts that don't go together, and those of other names than were asked for, aren't exported; what is opened is closed.
func TestPartsThatAreNotExported(t *testing.T) {
	before := fixture.CountOpened(t, fixture.Any)
	once := fixture.Part(t, protocol.DeviceID{7: 1}, choice.Names{})
	for told, asked := range map[string]commandline.Options{
		"no such file": {Parts: []string{"/nowhere/a.part"}, Strict: true},
		"pics":         {Parts: []string{once}, Folders: []string{"pics"}},
	} {
		asked.LeaveOut, asked.Jobs, asked.Into = map[string]bool{}, 1, filepath.Join(t.TempDir(), "into")
		if status, err := Run(asked, io.Discard, io.Discard); status != 0 || err == nil || !strings.Contains(err.Error(), told) {
			t.Errorf("%s: %d, %v", told, status, err)
		}
		if _, err := os.Stat(asked.Into); !os.IsNotExist(err) {
			t.Errorf("%s: %v", told, err)
		}
	}
	if after := fixture.CountOpened(t, fixture.Any); after > before {
		t.Errorf("%d files were open, and %d are", before, after)
	}
}

// A document, or what stands beside them, that can't be written ends the export, and none of it is left.
func TestDocumentsThatCannotBeWritten(t *testing.T) {
	room := t.TempDir()
	if err := os.WriteFile(filepath.Join(room, "file"), nil, 0o600); err != nil {
		t.Fatal(err)
	}
	next := &rows.Piece{Folder: "docs", Written: []byte("{}\n")}
	below := &outlet{directory: filepath.Join(room, "file", "below")}
	if err := below.take(next); exit.Of(err, io.Discard, io.Discard) != exit.Fault {
		t.Errorf("below a file: %v", err)
	}
	if err := below.end(&finding.Answer{}, io.Discard); exit.Of(err, io.Discard, io.Discard) != exit.Fault {
		t.Errorf("the rest below a file: %v", err)
	}
	to := &outlet{directory: filepath.Join(room, "documents")}
	failed := errors.New("it failed")
	before := fixture.CountOpened(t, fixture.Any)
	if err := to.writeNew("a", func(io.Writer) error { return failed }); !errors.Is(err, failed) {
		t.Error(err)
	}
	open := fixture.CountOpened(t, func(path string) bool { return filepath.Base(path) == "a" })
	if err := to.writeNew("a", func(io.Writer) error { return nil }); !errors.Is(err, os.ErrExist) || open > 0 {
		t.Errorf("%d files are open, %v", open, err)
	}
	to.drop()
	if after := fixture.CountOpened(t, fixture.Any); after > before {
		t.Errorf("%d files were open, and %d are", before, after)
	}
	if _, err := os.Stat(to.directory); !os.IsNotExist(err) {
		t.Errorf("a directory is left: %v", err)
	}
	(&outlet{}).drop()
}

// What stands beside the documents is written whole, or an error is told, whatever room there is.
func TestRoomForTheRest(t *testing.T) {
	folder := &finding.Folder{ID: "docs"}
	for count := 0; count < 300; count++ {
		folder.Unwon.Add(finding.Unwon{Name: "a name that takes some bytes"})
	}
	rest := &exported{Found: &finding.Answer{Devices: make([]finding.Device, 90), Folders: []*finding.Folder{folder}}}
	var whole strings.Builder
	if err := rest.write(&whole); err != nil {
		t.Fatal(err)
	}
	for room := 0; room < whole.Len(); room += whole.Len()/100 + 1 {
		if err := rest.write(&fixture.Cramped{Room: room}); err == nil {
			t.Errorf("%d bytes are written into room for %d", whole.Len(), room)
		}
	}
	if err := rest.write(&fixture.Cramped{Room: whole.Len()}); err != nil {
		t.Error(err)
	}
}

// A home that can't be opened is left out, told, and known to the sum. A part that is cut off ends the export, and nothing of it is left.
func TestAnExportWithoutADevice(t *testing.T) {
	whole, cut := fixture.Part(t, protocol.DeviceID{7: 1}, choice.Names{}), fixture.Part(t, protocol.DeviceID{7: 2}, choice.Names{})
	text, err := os.ReadFile(cut)
	if err != nil {
		t.Fatal(err)
	}
	if err := os.WriteFile(cut, text[:len(text)-12], 0o600); err != nil {
		t.Fatal(err)
	}
	none := filepath.Join(t.TempDir(), "none")
	for what, row := range map[string]struct {
		homes, parts []string
		isMade       bool
	}{"no home": {[]string{none}, []string{whole}, true}, "cut off": {nil, []string{whole, cut}, false}} {
		directory := filepath.Join(t.TempDir(), "documents")
		var log strings.Builder
		status, err := Run(commandline.Options{Homes: row.homes, Parts: row.parts, Data: map[int]string{}, Maps: map[int]device.Maps{}, LeaveOut: map[string]bool{}, Jobs: 1, Into: directory}, io.Discard, &log)
		if (err == nil) != row.isMade || status != 0 {
			t.Errorf("%s: %d, %v, %s", what, status, err, log.String())
		}
		if !row.isMade {
			if _, err := os.Stat(directory); !os.IsNotExist(err) {
				t.Errorf("%s: a directory is left: %v", what, err)
			}
			continue
		}
		reply(t, directory, "cut-0001", settled)
		sum, err := SumOf(directory)
		if err != nil || len(sum.LeftOut) != 1 || !strings.Contains(sum.LeftOut[0].Device+sum.LeftOut[0].Why, none) || !strings.Contains(log.String(), "It is left out") {
			t.Errorf("%s: %+v, %v, %s", what, sum, err, log.String())
		}
	}
}

// An answer whose lists couldn't be kept isn't exported as if it had all.
func TestAnAnswerThatLacksSomething(t *testing.T) {
	t.Setenv("TMPDIR", "/nowhere")
	folder := &finding.Folder{ID: "docs"}
	for count := 0; count <= spill.MostInMemory; count++ {
		folder.Unwon.Add(finding.Unwon{Name: "a"})
	}
	var output strings.Builder
	if err := (&outlet{output: &output, kept: []byte("x")}).end(&finding.Answer{Folders: []*finding.Folder{folder}}, io.Discard); err == nil || output.Len() > 0 {
		t.Errorf("%v, %s", err, output.String())
	}
}
