package stignore

import (
	"math/rand"
	"os"
	"path/filepath"
	"strings"
	"testing"

	"github.com/syncthing/syncthing/lib/fs"
	"github.com/syncthing/syncthing/lib/ignore"
)

// pieces are what patterns and names are made of here.
var (
	pieces = []string{"a", "b", "A", "É", "*", "**", "?", "[ab]", "{a,b}", "/", "/", "\\", "!", "(?i)", "(?d)", ".", " ", "//", "[", "]", "{", "#x"}
	parts  = []string{"a", "b", "A", "é", "É", "ab", "ba", "a b", "c", ".a", "x[", "!a"}
)

func drawLine(random *rand.Rand) string {
	line := ""
	for count := random.Intn(5); count >= 0; count-- {
		line += pieces[random.Intn(len(pieces))]
	}
	return line
}

func drawName(random *rand.Rand) string {
	name := []string{}
	for count := random.Intn(4); count >= 0; count-- {
		name = append(name, parts[random.Intn(len(parts))])
	}
	return strings.Join(name, "/")
}

// isIgnored says what Syncthing says of a name, or else this, where its package panics.
func isIgnored(by *ignore.Matcher, name string, otherwise bool) (is bool) {
	return asked(func() bool { return by.Match(name).IsIgnored() }, otherwise)
}

// asked says what Syncthing says, or else this, where its package panics.
func asked(syncthing func() bool, otherwise bool) (is bool) {
	defer func() {
		if recover() != nil {
			is = otherwise
		}
	}()
	return syncthing()
}

// quickRoom gives a directory in memory, where there is one.
func quickRoom(t *testing.T) string {
	room, err := os.MkdirTemp("/dev/shm", "syncthing-audit-test-")
	if err != nil {
		return t.TempDir()
	}
	t.Cleanup(func() { os.RemoveAll(room) })
	return room
}

// Which names a .stignore keeps out is what Syncthing's own package says, with files that are included and lines that are none.
func TestAsSyncthing(t *testing.T) {
	random, fitted, refused, takes, deletable := rand.New(rand.NewSource(1)), 0, 0, 0, 0
	room := quickRoom(t)
	for round := 0; round < 1500; round++ {
		lines := [2][]string{}
		for place := range lines {
			for count := random.Intn(4); count >= 0; count-- {
				lines[place] = append(lines[place], drawLine(random))
			}
		}
		if random.Intn(3) == 0 {
			lines[0] = append(lines[0], "#include  more", drawLine(random))
		}
		if random.Intn(30) == 0 {
			lines[random.Intn(2)] = append(lines[0], "#include none")
		}
		for place, name := range []string{File, "more"} {
			if err := os.WriteFile(filepath.Join(room, name), []byte(strings.Join(lines[place], "\r\n")), 0o600); err != nil {
				t.Fatal(err)
			}
		}
		files := fs.NewFilesystem(fs.FilesystemTypeBasic, room)
		due := ignore.New(files)
		failure := due.Load(File)
		read, err := Read(room)
		var patterns *Patterns
		if err == nil {
			patterns, err = Parse(read, false)
		}
		if err != nil {
			refused++
			hasOther := strings.Contains(strings.Join(read, "\n"), "#x") // a pattern to Syncthing 1, and to a later one it may be something else
			if failure == nil && !hasOther {
				t.Fatalf("%q: %v, and Syncthing reads it", lines, err)
			}
			continue
		}
		if failure != nil {
			t.Fatalf("%q is read, and Syncthing says: %v", lines, failure)
		}
		for count := 0; count < 30; count++ {
			name := drawName(random)
			is := patterns.IsIgnored(name)
			if is != isIgnored(due, name, is) {
				t.Fatalf("%q: %q is ignored: %v", read, name, is)
			}
			goes := patterns.IsDeletable(name)
			if goes != asked(func() bool { return due.Match(name).IsDeletable() }, goes) {
				t.Fatalf("%q: %q goes with its directory: %v", read, name, goes)
			}
			if is {
				fitted++
			}
			if goes {
				deletable++
			}
		}
		if patterns.TakesIgnored() {
			takes++
		}
		if asked, is := any(due).(interface{ SkipIgnoredDirs() bool }); is && asked.SkipIgnoredDirs() == patterns.TakesIgnored() {
			t.Fatalf("%q: a directory that is ignored may be taken: %v", read, patterns.TakesIgnored())
		}
	}
	if fitted < 1000 || refused < 100 || takes < 20 || deletable < 100 {
		t.Errorf("%d names fitted, of which %d go with their directories, %d files were none, %d take what is ignored", fitted, deletable, refused, takes)
	}
}

// A folder without .stignore ignores nothing; on some systems patterns don't heed case; what a later Syncthing may mean by a line isn't guessed.
func TestWhatSyncthingHasNoTestOf(t *testing.T) {
	if lines, err := Read(t.TempDir()); err != nil || lines != nil {
		t.Errorf("%q, %v", lines, err)
	}
	patterns, err := Parse([]string{"!KEEP", "*.Jpg"}, true)
	if err != nil || !patterns.IsIgnored("a/B.JPG") || patterns.IsIgnored("keep") || !patterns.TakesIgnored() {
		t.Errorf("%v", err)
	}
	if patterns, err = Parse([]string{"e\u0301"}, false); err != nil || !patterns.IsIgnored("a/é") { // Syncthing 1.19 doesn't compose patterns, later ones do
		t.Errorf("a pattern that isn't composed: %v", err)
	}
	if _, err := Parse([]string{"#escape=|"}, false); err == nil {
		t.Error("a line that this program doesn't know is a pattern")
	}
	room := t.TempDir()
	if err := os.WriteFile(filepath.Join(room, File), []byte("#include .stignore"), 0o600); err != nil {
		t.Fatal(err)
	}
	if _, err := Read(room); err == nil || strings.Contains(err.Error(), room) {
		t.Errorf("a file that includes itself: %v", err)
	}
}

// Nothing outside the folder is read, whatever names it: its bytes would go into the part. What is in the folder is, also by a symlink.
func TestNothingOutsideTheFolderIsRead(t *testing.T) {
	isRoot := os.Geteuid() == 0
	for why, row := range map[string]struct {
		links   map[string]string
		ignores string // nothing where a link makes it
		isRead  bool
	}{
		"a file beside the folder":      {nil, "#include ../secret", false},
		"by its whole path":             {nil, "#include ../../../../../../../..ROOM/secret", false},
		"a symlink out of the folder":   {map[string]string{"more": "../secret"}, "#include more", false},
		"a directory out of the folder": {map[string]string{"up": ".."}, "#include up/secret", false},
		"a symlink within":              {map[string]string{"more": "below/lines"}, "#include more", true},
		"a file below":                  {nil, "#include below/lines", true},
		"up and down again":             {nil, "#include below/../below/lines", true},
		"its own symlink":               {map[string]string{File: "../secret"}, "", !isRoot},
		"its own symlink within":        {map[string]string{File: "below/lines"}, "", true},
		"its own, and then out":         {map[string]string{File: "below/out"}, "", false},
	} {
		room := t.TempDir()
		folder := filepath.Join(room, "folder")
		if err := os.MkdirAll(filepath.Join(folder, "below"), 0o755); err != nil {
			t.Fatal(err)
		}
		texts := map[string]string{"../secret": "BEGIN KEY", "below/lines": "BEGIN KEY", "below/out": "#include ../secret"}
		if row.ignores != "" {
			texts[File] = strings.ReplaceAll(row.ignores, "ROOM", room)
		}
		for name, text := range texts {
			if err := os.WriteFile(filepath.Join(folder, name), []byte(text), 0o600); err != nil {
				t.Fatal(err)
			}
		}
		for name, target := range row.links {
			if err := os.Symlink(target, filepath.Join(folder, name)); err != nil {
				t.Fatal(err)
			}
		}
		for _, path := range []string{folder, filepath.Join(room, "link")} {
			if path != folder {
				if err := os.Symlink("folder", path); err != nil {
					t.Fatal(err)
				}
			}
			lines, err := Read(path)
			if (err == nil) != row.isRead || (len(lines) == 1) != row.isRead || err != nil && strings.Contains(err.Error(), room) {
				t.Errorf("%s: %q, %v", why, lines, err)
			}
			if err != nil && !strings.HasSuffix(err.Error(), " can't be read: it is outside the folder, where this program reads nothing") {
				t.Errorf("%s: %v", why, err)
			}
		}
	}
}

// The .stignore itself is the user's, and may lead out of the folder; what it includes may not, nor may it where root reads.
func TestWhoseStignoreMayLeadElsewhere(t *testing.T) {
	room := t.TempDir()
	root, secret := filepath.Join(room, "folder"), filepath.Join(room, "secret")
	if err := os.Mkdir(root, 0o755); err != nil {
		t.Fatal(err)
	}
	for path, text := range map[string]string{secret: "a", filepath.Join(room, "more"): "#include secret", filepath.Join(root, "own"): "#include ../secret"} {
		if err := os.WriteFile(path, []byte(text), 0o600); err != nil {
			t.Fatal(err)
		}
	}
	for place, row := range []struct {
		path          string
		leads, isRead bool
	}{{secret, true, true}, {secret, false, false}, {filepath.Join(room, "more"), true, false}, {filepath.Join(root, "own"), true, false}, {filepath.Join(root, "own"), false, false}} {
		begun := &reading{root: root, leads: row.leads, seen: map[string]bool{}, files: map[string]bool{}}
		if err := begun.file(row.path); (err == nil) != row.isRead || (len(begun.lines) == 1) != row.isRead {
			t.Errorf("%d: %q, %v", place, begun.lines, err)
		}
	}
}

// What is no pattern is told as it stands, and why it is none.
func TestWhatIsNoPatternIsTold(t *testing.T) {
	for line, due := range map[string]string{"a[": "it has the pattern \"a[\", which is none: ", "!": "it has the pattern \"!\", which is none: it is empty", "#x": "it has the line \"#x\", which this program doesn't know"} {
		if patterns, err := Parse([]string{"a", line}, false); patterns != nil || err == nil || !strings.HasPrefix(err.Error(), due) {
			t.Errorf("%s: %v", line, err)
		}
	}
}

// Of very many lines, be they of the folder's own file or of one that it includes, which another device may have sent, none is read on.
func TestVeryManyLines(t *testing.T) {
	for _, row := range []struct {
		own, shared int
		isRead      bool
	}{{mostOfLines - len("#include shared\n"), 0, true}, {mostOfLines - len("#include shared\n") + 8, 0, false}, {mostOfLines / 2, mostOfLines/2 - 16, true}, {mostOfLines / 2, mostOfLines / 2, false}} {
		room := t.TempDir()
		for name, text := range map[string]string{File: "#include shared\n" + strings.Repeat("// note\n", row.own/8), "shared": strings.Repeat("// note\n", row.shared/8)} {
			if err := os.WriteFile(filepath.Join(room, name), []byte(text), 0o600); err != nil {
				t.Fatal(err)
			}
		}
		if lines, err := Read(room); (err == nil) != row.isRead || err != nil && err != errManyLines || len(lines) > 0 {
			t.Errorf("%+v: %d lines, %v", row, len(lines), err)
		}
	}
}

// A line counts once, wherever it stands, and so does an '#include'. Comments and empty lines are none.
func TestALineCountsOnce(t *testing.T) {
	room := t.TempDir()
	for name, text := range map[string]string{File: "a\n// b\n\n  a  \n#include more\nc\n#include more\n", "more": "c\nd\na\n#include more\n"} {
		if err := os.WriteFile(filepath.Join(room, name), []byte(text), 0o600); err != nil {
			t.Fatal(err)
		}
	}
	if lines, err := Read(room); err != nil || strings.Join(lines, " ") != "a c d" {
		t.Errorf("%q, %v", lines, err)
	}
}

// A folder may be named from where the program was begun; what it includes is in it all the same.
func TestAFolderThatIsNamedFromHere(t *testing.T) {
	room := t.TempDir()
	for name, text := range map[string]string{File: "a\n#include more", "more": "b"} {
		if err := os.WriteFile(filepath.Join(room, name), []byte(text), 0o600); err != nil {
			t.Fatal(err)
		}
	}
	here, err := os.Getwd()
	if err != nil {
		t.Fatal(err)
	}
	if err := os.Chdir(room); err != nil {
		t.Fatal(err)
	}
	defer os.Chdir(here)
	if lines, err := Read("."); err != nil || strings.Join(lines, " ") != "a b" {
		t.Errorf("%q, %v", lines, err)
	}
}

// Whether a directory that is kept out may be the folder's all the same is what Syncthing's own package says, line by line.
func TestWhatTakesWhatIsIgnored(t *testing.T) {
	lines := []string{"!/**", "!/**/**", "/**", "!/a", "!/a/**", "!/a/b", "!a", "!**/a", "a", "/a", "*", "!/a**", "!/*a", "(?d)!/a", "!/a/", "!*", "!//a"}
	takes := 0
	for _, first := range lines {
		for _, second := range lines {
			for _, third := range []string{"", "!/**/**", "!/a/**", "!/a/**/**"} {
				all := []string{first, second}
				if third != "" {
					all = append(all, third)
				}
				due := ignore.New(fs.NewFilesystem(fs.FilesystemTypeFake, "room"))
				if err := due.Parse(strings.NewReader(strings.Join(all, "\n")), File); err != nil {
					t.Fatal(err)
				}
				patterns, err := Parse(all, false)
				if err != nil {
					t.Fatal(err)
				}
				if patterns.TakesIgnored() {
					takes++
				}
				if asked, is := any(due).(interface{ SkipIgnoredDirs() bool }); is && asked.SkipIgnoredDirs() == patterns.TakesIgnored() && first != second {
					t.Errorf("%q: a directory that is ignored may be taken: %v", all, patterns.TakesIgnored())
				}
			}
		}
	}
	if takes < 300 {
		t.Errorf("%d take what is ignored", takes)
	}
}

// Patterns don't heed case where disks don't.
func TestSystemsThatDoNotHeedCase(t *testing.T) {
	for system, is := range map[string]bool{"linux": false, "windows": true, "darwin": true, "freebsd": false, "": false} {
		if FoldsCase(system) != is {
			t.Errorf("%s: %v", system, !is)
		}
	}
}
