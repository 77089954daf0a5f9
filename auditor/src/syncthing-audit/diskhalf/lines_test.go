package diskhalf

import (
	"bytes"
	"encoding/hex"
	"errors"
	"flag"
	"fmt"
	"math/rand"
	"os"
	"path/filepath"
	"reflect"
	"runtime"
	"sort"
	"strings"
	"syscall"
	"testing"
	"time"

	"syncthing-audit/bep"
	"syncthing-audit/disk"
	"syncthing-audit/part"
	"syncthing-audit/shell"
)

// oddRoom makes a folder's directory with what a part tells by itself, by a hash, or with why it isn't read.
func oddRoom(t *testing.T) string {
	room := roomWith(t, "a", "b/c", "1.tmp", "2.tmp", "3.tmp", "odd\xff")
	if err := os.WriteFile(filepath.Join(room, ".stignore"), []byte("*.tmp\n"), 0o644); err != nil {
		t.Fatal(err)
	}
	return room
}

// Folders stand in a part in the order of their ids, each with its own names: those with a hash in their place behind all others, in the order of the hashes. A name
// that no document has says why.
func TestEachFolderOfAPart(t *testing.T) {
	rooms := map[string]string{"b": oddRoom(t), "a": roomWith(t, "x"), "c": roomWith(t)}
	asked := askedFor("")
	asked.Folders, asked.Paths = nil, true
	for id, room := range rooms {
		asked.Folders = append(asked.Folders, Folder{id, room})
	}
	pool := disk.NewPool(2)
	defer pool.Close()
	var text bytes.Buffer
	told, err := Write(&text, asked, pool)
	if err != nil {
		t.Fatal(err)
	}
	reader, err := part.NewReader(&text)
	if err != nil {
		t.Fatal(err)
	}
	var ids, hashes []string
	names := map[string]*part.Name{}
	for line, err := reader.Next(); err == nil; line, err = reader.Next() {
		switch {
		case line.Begin != nil:
			ids = append(ids, line.Begin.Folder)
		case line.Name != nil:
			name := string(line.Name.Name)
			if names[name] = line.Name; shell.IsBehindNames(name) {
				hashes = append(hashes, name)
			}
		}
	}
	if strings.Join(ids, "") != "abc" || told.Names != int64(len(names)) || !sort.StringsAreSorted(hashes) {
		t.Errorf("%q, %+v, %q", ids, told, hashes)
	}
	for place, folder := range reader.Head().Folders {
		if folder.ID != ids[place] || folder.Path != rooms[folder.ID] || folder.Directory == "" {
			t.Errorf("%+v", folder)
		}
	}
	odd := names["odd\xff"]
	if odd == nil || len(odd.Out) != 1 || odd.Out[0].Kind != part.OddName {
		t.Errorf("%+v", odd)
	}
	for _, hash := range hashes {
		if line := names[hash]; line.Disk.Size != 5 || line.Out[0].Bytes != 5 || line.Out[0].Kind != part.Ignored {
			t.Errorf("%+v", line)
		}
	}
	if len(hashes) != 3 {
		t.Errorf("%q", hashes)
	}
}

// A name that is too long to be told has a hash of its own in its place, whatever .stignore says, and one that isn't has none.
func TestNamesThatAreTooLong(t *testing.T) {
	maker := &maker{asked: askedFor(roomWith(t))}
	opened, err := maker.open(maker.asked.Folders[0])
	if err != nil {
		t.Fatal(err)
	}
	for length := part.MostNameBytes - 1; length < part.MostNameBytes+3; length++ {
		walking := &walking{maker: maker, folder: opened, walker: maker.walker(opened), to: disk.NewQueue()}
		name := strings.Repeat("n", length)
		if err := walking.take(disk.Found{Name: name, Node: &part.Node{}, Out: &part.LeftOut{Kind: part.Unreadable}}); err != nil {
			t.Fatal(err)
		}
		if (len(walking.hidden) == 1) != (length > part.MostNameBytes) {
			t.Errorf("%d bytes: %d", length, len(walking.hidden))
		}
		for _, hidden := range walking.hidden {
			if hidden.line.Name != part.HiddenLongName("docs", name).Bytes() || hidden.line.Disk != nil || hidden.line.Out[0].Kind != part.OddName ||
				hidden.line.Out[0].Why != fmt.Sprintf("its name has %d bytes: a part tells at most 4096", length) {
				t.Errorf("%+v", hidden.line)
			}
		}
	}
}

// Whichever line of a part can't be written, that ends the walk, and is told.
func TestEachLineThatIsNotTaken(t *testing.T) {
	pool := disk.NewPool(2)
	defer pool.Close()
	full := errors.New("no room")
	for lines := 0; ; lines++ {
		maker := &maker{asked: askedFor(oddRoom(t)), pool: pool}
		opened, err := maker.open(maker.asked.Folders[0])
		if err != nil {
			t.Fatal(err)
		}
		maker.folders = []*folder{opened}
		left := lines
		err = maker.write(func(part.Line) error {
			if left--; left < 0 {
				return full
			}
			return nil
		})
		if left >= 0 {
			if err != nil || lines < 9 {
				t.Errorf("%d lines: %v", lines, err)
			}
			return
		}
		if err != full {
			t.Errorf("line %d isn't taken: %v", lines, err)
		}
	}
}

// What is counted is told: names that moved, that a disk fails to give, and the bytes that were read. No stamp is in a part.
func TestWhatIsCounted(t *testing.T) {
	maker := &maker{}
	var taken []*part.Name
	take := maker.count(func(line part.Line) error { taken = append(taken, line.Name); return nil })
	contents := []part.Content{{}}
	stamped := &part.Name{Name: "a", Disk: &part.Node{Size: 9, Unread: 2, Stamp: "s", Contents: contents}}
	for _, line := range []part.Line{{Begin: &part.Begin{}}, {Name: stamped}, {Name: &part.Name{Name: "b", Disk: &part.Node{Size: 5}}}, {Name: &part.Name{Name: "c", Moved: []string{part.MovedDisk}}},
		{Name: &part.Name{Name: "d", Out: []part.LeftOut{{Kind: part.Damaged}}}}, {Name: &part.Name{Name: "e"}}, {End: &part.End{}}} {
		if err := take(line); err != nil {
			t.Fatal(err)
		}
	}
	if told := maker.told; told.Names != 5 || told.Bytes != 7 || told.Moved != 1 || told.Damaged != 1 {
		t.Errorf("%+v", told)
	}
	if taken[0] != nil || taken[1].Disk.Stamp != "" || stamped.Disk.Stamp != "s" || taken[1].Disk.Size != 9 || len(taken) != 7 {
		t.Errorf("%+v", taken)
	}
}

// What can't be walked, and what there is no place for, is told, and nothing is left.
func TestWhatIsNotWalked(t *testing.T) {
	room, pool := roomWith(t, "a"), disk.NewPool(1)
	defer pool.Close()
	asked := askedFor(room)
	asked.Marker = "a/b"
	if _, err := Write(&bytes.Buffer{}, asked, pool); err == nil || !strings.Contains(err.Error(), "not a directory") {
		t.Errorf("a marker below a file: %v", err)
	}
	if _, err := Write(unwritable{}, askedFor(room), pool); err == nil {
		t.Error("it is written where nothing can be")
	}
	long := askedFor(room)
	long.Prefix = strings.Repeat("x", 17<<20)
	if _, err := Write(&bytes.Buffer{}, long, pool); err == nil || !strings.HasPrefix(err.Error(), "refused: what a part says of its folders and devices takes ") {
		t.Errorf("a head that is too long: %v", err)
	}
	gone := &maker{asked: askedFor(room), pool: pool}
	opened, err := gone.open(gone.asked.Folders[0])
	if err != nil {
		t.Fatal(err)
	}
	gone.folders = []*folder{opened}
	if err := os.RemoveAll(room); err != nil {
		t.Fatal(err)
	}
	temporary := t.TempDir()
	t.Setenv("TMPDIR", temporary)
	_, drop, err := gone.glance()
	if drop(); err == nil || !strings.HasPrefix(err.Error(), "folder docs: ") {
		t.Errorf("a directory that is gone: %v", err)
	}
	if err := gone.write(func(part.Line) error { return nil }); err == nil {
		t.Error("a directory that is gone is written")
	}
	if left, err := os.ReadDir(temporary); err != nil || len(left) > 0 {
		t.Errorf("%v is left, %v", left, err)
	}
	t.Setenv("TMPDIR", "/nowhere")
	if _, err := Write(&bytes.Buffer{}, askedFor(roomWith(t, "a")), pool); err == nil || !strings.Contains(err.Error(), "/nowhere") {
		t.Errorf("%v", err)
	}
}

// Of a part with paths no path is taken out of what is told.
func TestPathsThatAreTold(t *testing.T) {
	room := roomWith(t, "a")
	opened, err := (&maker{asked: askedFor(room)}).open(Folder{"docs", room})
	if err != nil {
		t.Fatal(err)
	}
	if told, hidden := opened.hiddenPath(true), opened.hiddenPath(false); told != "" || hidden != room {
		t.Errorf("%q, %q", told, hidden)
	}
}

// Where names aren't wanted any more the walk ends, whichever come next: those that are told, or those with a hash in their place.
func TestNamesThatAreNotWanted(t *testing.T) {
	pool := disk.NewPool(1)
	defer pool.Close()
	for _, name := range []string{"a", "1.tmp"} {
		room := roomWith(t, name)
		if err := os.WriteFile(filepath.Join(room, ".stignore"), []byte("*.tmp\n"), 0o644); err != nil {
			t.Fatal(err)
		}
		maker := &maker{asked: askedFor(room), pool: pool}
		opened, err := maker.open(maker.asked.Folders[0])
		if err != nil {
			t.Fatal(err)
		}
		walking := &walking{maker: maker, folder: opened, walker: maker.walker(opened), to: disk.NewQueue()}
		walking.to.End(nil)
		walking.to.Stop()
		if err := walking.run(); err != errStopped {
			t.Errorf("%s: %v", name, err)
		}
		if names, _ := walking.to.Waiting(); names > 0 {
			t.Errorf("%s: %d names wait for nobody", name, names)
		}
	}
}

// What was found at the first look is kept in a file. Where that can't be written, or read from its begin, it is told.
func TestAFirstLookThatIsNotKept(t *testing.T) {
	room := roomWith(t, "a")
	maker := &maker{asked: askedFor(room)}
	opened, err := maker.open(maker.asked.Folders[0])
	if err != nil {
		t.Fatal(err)
	}
	shut, err := os.Create(filepath.Join(t.TempDir(), "shut"))
	if err != nil {
		t.Fatal(err)
	}
	shut.Close()
	if err := maker.glanceAt(opened, shut); !errors.Is(err, os.ErrClosed) || !strings.HasPrefix(err.Error(), "write ") {
		t.Error(err)
	}
	reading, pipe, err := os.Pipe()
	if err != nil {
		t.Fatal(err)
	}
	defer reading.Close()
	defer pipe.Close()
	if err := maker.glanceAt(opened, pipe); !errors.Is(err, syscall.ESPIPE) {
		t.Error(err)
	}
}

// removing takes a directory away once something is written.
type removing struct{ room string }

func (r removing) Write(data []byte) (int, error) { return len(data), os.RemoveAll(r.room) }

// A directory that goes once the head of the part is written has no part.
func TestADirectoryThatGoesBehindTheHead(t *testing.T) {
	room, random, lines := roomWith(t, "a"), rand.New(rand.NewSource(1)), ""
	for len(lines) < 180000 { // more than is kept back before it is written
		line := make([]byte, 2000)
		random.Read(line)
		lines += hex.EncodeToString(line) + "\n"
	}
	if err := os.WriteFile(filepath.Join(room, ".stignore"), []byte(lines), 0o600); err != nil {
		t.Fatal(err)
	}
	pool := disk.NewPool(1)
	defer pool.Close()
	if told, err := Write(removing{room}, askedFor(room), pool); err == nil || told != nil {
		t.Errorf("%+v, %v", told, err)
	}
}

// Where a name isn't taken no walk goes on, also where it waits for room for the next one.
func TestNoWalkGoesOnBehindARefusal(t *testing.T) {
	room := roomWith(t, "a", "b", "c")
	for _, name := range []string{"a", "b", "c"} {
		if err := os.Truncate(filepath.Join(room, name), 100<<30); err != nil {
			t.Skip("no file here is so long: ", err)
		}
	}
	pool := disk.NewPool(1)
	defer pool.Close()
	pool.Skip()
	asked, full := askedFor(room), errors.New("no room")
	asked.BlockSizes = []int64{bep.MinBlockSize} // the hashes of one file have no room beside those of another
	maker := &maker{asked: asked, pool: pool}
	opened, err := maker.open(asked.Folders[0])
	if err != nil {
		t.Fatal(err)
	}
	before := runtime.NumGoroutine()
	if err := maker.names(opened, &part.End{}, func(part.Line) error { return full }); err != full {
		t.Error(err)
	}
	for until := time.Now().Add(10 * time.Second); runtime.NumGoroutine() > before; time.Sleep(time.Millisecond) {
		if time.Now().After(until) {
			t.Fatal("a walk goes on")
		}
	}
}

type unwritable struct{}

func (unwritable) Write([]byte) (int, error) { return 0, errors.New("no room") }

// Nothing is told by what reads a command line: whoever calls it does.
func TestCommandsAreReadInSilence(t *testing.T) {
	had := os.Stderr
	defer func() { os.Stderr = had }()
	file, err := os.Create(filepath.Join(t.TempDir(), "told"))
	if err != nil {
		t.Fatal(err)
	}
	defer file.Close()
	os.Stderr = file
	ReadCommand([]string{"--odd"}, nil)
	ReadCommand([]string{"--help"}, nil)
	if told, err := os.ReadFile(file.Name()); err != nil || len(told) > 0 {
		t.Errorf("%s, %v", told, err)
	}
}

// A program may have flags of its own beside those that each has.
func TestMoreFlags(t *testing.T) {
	more := func(flags *flag.FlagSet, command *Command) { flags.StringVar(&command.Key, "sign", "", "") }
	words := []string{"--sign", "key", "--after", askedFor("").Device + ":" + look, "docs=/x"}
	if read, err := ReadCommand(words, more); err != nil || read.Key != "key" || read.Jobs < 1 || read.Marker != ".stfolder" || read.Paths {
		t.Errorf("%+v, %v", read, err)
	}
	if _, err := ReadCommand(words, nil); err == nil {
		t.Error("a flag that no program has is read")
	}
}

// The end of a folder says which directories hold what .stignore ignores, and what goes with them.
func TestWhatDirectoriesHold(t *testing.T) {
	room := roomWith(t, "goes/a.cache", "goes/x.cache/in", "stays/a.keep", "a.keep")
	if err := os.WriteFile(filepath.Join(room, ".stignore"), []byte("(?d)*.cache\n*.keep\n"), 0o644); err != nil {
		t.Fatal(err)
	}
	pool := disk.NewPool(1)
	defer pool.Close()
	var text bytes.Buffer
	if _, err := Write(&text, askedFor(room), pool); err != nil {
		t.Fatal(err)
	}
	reader, err := part.NewReader(&text)
	if err != nil {
		t.Fatal(err)
	}
	ends := 0
	for line, err := reader.Next(); err == nil; line, err = reader.Next() {
		if line.End == nil {
			continue
		}
		ends++
		holding, deletable := &part.Holding{Names: []part.Bytes{"stays"}}, &part.Deletable{In: []part.DeletableIn{{Directory: "goes", Count: part.Count{Names: 3, Bytes: 27}}}}
		if !reflect.DeepEqual(line.End.Holding, holding) || !reflect.DeepEqual(line.End.Deletable, deletable) {
			t.Errorf("%+v, %+v", line.End.Holding, line.End.Deletable)
		}
	}
	if ends != 1 {
		t.Error(ends)
	}
}
