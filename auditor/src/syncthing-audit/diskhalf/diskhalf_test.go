package diskhalf

import (
	"bytes"
	"flag"
	"io"
	"os"
	"path/filepath"
	"sort"
	"strings"
	"testing"
	"time"

	"syncthing-audit/bep"
	"syncthing-audit/disk"
	"syncthing-audit/part"
	"syncthing-audit/shell"
	"syncthing-audit/stignore"
)

const look = "00112233445566778899aabbccddeeff"

// roomWith makes a folder's directory with these files, each with its name as its bytes.
func roomWith(t *testing.T, names ...string) string {
	t.Helper()
	room := t.TempDir()
	for _, name := range append(names, ".stfolder/none") {
		path := filepath.Join(room, name)
		if err := os.MkdirAll(filepath.Dir(path), 0o755); err != nil {
			t.Fatal(err)
		}
		if err := os.WriteFile(path, []byte(name), 0o644); err != nil {
			t.Fatal(err)
		}
	}
	return room
}

func askedFor(room string) Asked {
	return Asked{Device: bep.ID{7: 1}.String(), Folders: []Folder{{"docs", room}}, After: look, Marker: ".stfolder"}
}

// walked gives the part of disks, and what a person is told of it.
func walked(t *testing.T, asked Asked) (*part.Head, map[string]*part.Name, *part.End, *Told) {
	t.Helper()
	temporary := t.TempDir()
	t.Setenv("TMPDIR", temporary)
	defer func() {
		if left, err := os.ReadDir(temporary); err != nil || len(left) > 0 {
			t.Errorf("%v is left, %v", left, err)
		}
	}()
	pool := disk.NewPool(2)
	defer pool.Close()
	var text bytes.Buffer
	told, err := Write(&text, asked, pool)
	if err != nil {
		t.Fatal(err)
	}
	reader, err := part.NewReader(&text)
	if err != nil {
		t.Fatal(err)
	}
	names, end := map[string]*part.Name{}, (*part.End)(nil)
	for {
		line, err := reader.Next()
		if err == io.EOF {
			return reader.Head(), names, end, told
		}
		if err != nil {
			t.Fatal(err)
		}
		if line.Name != nil {
			names[string(line.Name.Name)] = line.Name
		}
		if line.End != nil {
			end = line.End
		}
	}
}

// A part has what stands in the directory, no path of this machine, and a hash in place of what is ignored, which isn't read.
func TestWhatIsWritten(t *testing.T) {
	room := roomWith(t, "a", "below/b", "x.tmp", ".syncthing.c.tmp", "pipe")
	if err := os.WriteFile(filepath.Join(room, ".stignore"), []byte("*.tmp\n"), 0o644); err != nil {
		t.Fatal(err)
	}
	if err := os.Chmod(filepath.Join(room, "pipe"), 0); err != nil {
		t.Fatal(err)
	}
	if err := os.Link(filepath.Join(room, "a"), filepath.Join(t.TempDir(), "a")); err != nil {
		t.Fatal(err)
	}
	head, names, end, told := walked(t, askedFor(room))
	if head.Half == nil || head.Half.After != look || len(head.Half.ID) != 32 || strings.Join(head.Folders[0].Ignores.Lines, " ") != "*.tmp" {
		t.Errorf("%+v, %+v", head.Half, head.Folders[0].Ignores)
	}
	hidden := string(part.HiddenName("docs", "x.tmp").Bytes())
	if len(names) != 5 || names["a"].Disk.Contents[0].Hash != disk.HashOf([][32]byte{names["a"].Disk.Contents[0].Hash}) && names["a"].Disk.Size != 1 ||
		names["below"].Disk.Type != bep.Directory || names[hidden] == nil || names[hidden].Disk.Contents != nil {
		t.Errorf("%v", names)
	}
	if end.Temporary.Names != 1 || end.Linked == nil || end.Linked.Names != 1 || told.Names != 5 || told.Bytes != end.Bytes {
		t.Errorf("%+v, %+v", end, told)
	}
	for name, line := range names {
		if strings.Contains(name, room) || len(line.Out) > 0 && strings.Contains(line.Out[0].Why, room) || shell.IsBehindNames(name) != (name == hidden) {
			t.Errorf("%q: %+v", name, line)
		}
	}
}

// What is ignored is told by a hash, but for directories above names that a pattern takes in.
func TestDirectoriesAboveWhatIsTakenIn(t *testing.T) {
	room := roomWith(t, "keep/x", "other/y", "z")
	if err := os.WriteFile(filepath.Join(room, ".stignore"), []byte("!/keep/x\n*\n"), 0o644); err != nil {
		t.Fatal(err)
	}
	_, names, _, _ := walked(t, askedFor(room))
	told := []string{}
	for name := range names {
		if !shell.IsBehindNames(name) {
			told = append(told, name)
		}
	}
	if sort.Strings(told); strings.Join(told, " ") != "keep keep/x other" || len(names) != 5 {
		t.Errorf("%q of %d", told, len(names))
	}
	folder := &folder{patterns: &stignore.Patterns{}}
	for _, line := range []string{"!/keep/x", "*"} {
		patterns, err := stignore.Parse([]string{line}, false)
		if err != nil {
			t.Fatal(err)
		}
		if folder.patterns = patterns; folder.mayBeTaken(nil) || folder.mayBeTaken(&part.Node{Type: bep.File}) || folder.mayBeTaken(&part.Node{Type: bep.Directory}) != (line[0] == '!') {
			t.Errorf("%s: %v", line, patterns.TakesIgnored())
		}
	}
}

// Each part has another id; only names that are asked for are in it.
func TestTwoWalks(t *testing.T) {
	asked := askedFor(roomWith(t, "a", "b/c", "b/d"))
	first, _, _, _ := walked(t, asked)
	asked.Prefix = "b/"
	second, names, end, _ := walked(t, asked)
	if first.Half.ID == second.Half.ID || len(names) != 2 || end.Linked != nil {
		t.Errorf("%v, %v, %+v", first.Half, names, end)
	}
}

// A directory without the marker isn't a folder's: its disk may not be mounted. A file's time that changes while all is hashed is told as moved.
func TestWhatIsRefusedAndWhatMoves(t *testing.T) {
	pool := disk.NewPool(1)
	defer pool.Close()
	room := roomWith(t, "a")
	for told, change := range map[string]func(*Asked){"has no .stmarker": func(a *Asked) { a.Marker = ".stmarker" },
		"no such file": func(a *Asked) { a.Folders = []Folder{{"docs", room + "/none"}} }, "not a directory": func(a *Asked) { a.Folders = []Folder{{"docs", room + "/a"}} }} {
		asked := askedFor(room)
		change(&asked)
		if _, err := Write(io.Discard, asked, pool); err == nil || !strings.Contains(err.Error(), told) {
			t.Errorf("%s: %v", told, err)
		}
	}
	maker := &maker{asked: askedFor(room), pool: pool}
	opened, err := maker.open(maker.asked.Folders[0])
	if err != nil {
		t.Fatal(err)
	}
	maker.folders = []*folder{opened}
	glanced, drop, err := maker.glance()
	defer drop()
	if err != nil {
		t.Fatal(err)
	}
	now := time.Now().Add(time.Hour)
	if err := os.Chtimes(filepath.Join(room, "a"), now, now); err != nil {
		t.Fatal(err)
	}
	moved := []string{}
	if err := maker.write(glanced.Compare(maker.count(func(line part.Line) error {
		if line.Name != nil {
			moved = append(moved, line.Name.Moved...)
		}
		return nil
	}))); err != nil || strings.Join(moved, " ") != part.MovedDisk || maker.told.Moved != 1 {
		t.Errorf("%v, %v", moved, err)
	}
}

// Patterns that this program doesn't know are told, and nothing is taken for ignored.
func TestUnknownPatterns(t *testing.T) {
	room := roomWith(t, "a")
	if err := os.WriteFile(filepath.Join(room, ".stignore"), []byte("a\n#escape=|\n"), 0o644); err != nil {
		t.Fatal(err)
	}
	head, names, _, told := walked(t, askedFor(room))
	if names["a"] == nil || len(names["a"].Out) > 0 || head.Folders[0].Ignores.Unknown == "" || len(head.Folders[0].Ignores.Lines) > 0 || len(told.Unknown) != 1 {
		t.Errorf("%v, %+v, %v", names, head.Folders[0].Ignores, told.Unknown)
	}
}

// A file of several blocks is cut into those for its size, and into others that were asked for.
func TestBlockSizes(t *testing.T) {
	room := roomWith(t, "a")
	for name, blocks := range map[string]int{"large": 3, "block": 1} {
		if err := os.WriteFile(filepath.Join(room, name), make([]byte, blocks*bep.MinBlockSize), 0o644); err != nil {
			t.Fatal(err)
		}
	}
	asked := askedFor(room)
	asked.BlockSizes = []int64{2 * bep.MinBlockSize, bep.MaxBlockSize}
	_, names, _, _ := walked(t, asked)
	sizes := []int64{}
	for _, content := range names["large"].Disk.Contents {
		sizes = append(sizes, content.BlockSize)
	}
	if len(sizes) != 3 || sizes[0] != bep.MinBlockSize || len(names["a"].Disk.Contents) != 1 || len(names["block"].Disk.Contents) != 1 {
		t.Errorf("%v, %v", sizes, names["a"].Disk.Contents)
	}
}

// What is wrong with a command line is told, and a part isn't put into a folder.
func TestCommands(t *testing.T) {
	token := bep.ID{7: 1}.String() + ":" + look
	for words, told := range map[string]string{
		"--after " + token:                                  "no folder is given",
		"docs=/x":                                           "--after TOKEN is missing",
		"--after " + token + " docs":                        `"docs" is no folder`,
		"--after " + token + " =x":                          `"=x" is no folder`,
		"--after " + token + " docs=/x docs=/y":             "given twice",
		"--after " + token + "0 docs=/x":                    "no token",
		"--after x:" + look + " docs=/x":                    "no device id",
		"--after " + token + " --block-size 100000 docs=/x": "no size of blocks",
		"--after " + token + " --marker a/b docs=/x":        "--marker",
		"--after " + token + " --jobs 0 docs=/x":            "--jobs",
		"--after " + token + " --none docs=/x":              "not defined",
		"--help":                                            flag.ErrHelp.Error(),
	} {
		if _, err := ReadCommand(strings.Fields(words), nil); err == nil || !strings.Contains(err.Error(), told) {
			t.Errorf("%s: %v", words, err)
		}
	}
	read, err := ReadCommand(strings.Fields("docs=/x -o part --after "+strings.ToLower(token)+" more=C:\\y --slice 1/3 --block-size 262144 --names a --paths --config c --jobs 1"), nil)
	if err != nil || read.Device != (bep.ID{7: 1}).String() || read.After != look || len(read.Folders) != 2 || read.Folders[1].Directory != `C:\y` ||
		read.Slices != 3 || read.BlockSizes[0] != 262144 || read.Prefix != "a" || !read.Paths || read.Config != "c" || read.Jobs != 1 || read.Output != "part" {
		t.Fatal(read, err)
	}
	room := roomWith(t, "below/a")
	for output, isFolder := range map[string]bool{"": false, filepath.Join(room, "part"): true, filepath.Join(room, "below/part"): true,
		filepath.Join(t.TempDir(), "part"): false} {
		read.Output = output
		if err := read.CheckOutput(); (err != nil) != isFolder {
			t.Errorf("%s: %v", output, err)
		}
	}
}
