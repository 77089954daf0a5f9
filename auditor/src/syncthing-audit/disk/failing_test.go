package disk

import (
	"crypto/sha256"
	"errors"
	"os"
	"path/filepath"
	"reflect"
	"strings"
	"syscall"
	"testing"
	"time"

	"github.com/syncthing/syncthing/lib/fs"
	"github.com/syncthing/syncthing/lib/protocol"
	"syncthing-audit/adapt"
	"syncthing-audit/part"
)

// faulty is a disk on which one call fails for one name.
type faulty struct {
	fs.Filesystem
	call, name string
	err        error
	failed     int
}

func (f *faulty) fails(call, name string) error {
	if f.call != call || f.name != name {
		return nil
	}
	f.failed++
	return &os.PathError{Op: call, Path: name, Err: f.err}
}

func (f *faulty) DirNames(name string) ([]string, error) {
	if err := f.fails("list", name); err != nil {
		return nil, err
	}
	return f.Filesystem.DirNames(name)
}

func (f *faulty) Lstat(name string) (fs.FileInfo, error) {
	if err := f.fails("stat", name); err != nil {
		return nil, err
	}
	return f.Filesystem.Lstat(name)
}

func (f *faulty) ReadSymlink(name string) (string, error) {
	if err := f.fails("readlink", name); err != nil {
		return "", err
	}
	return f.Filesystem.ReadSymlink(name)
}

// Info is what the stamp of a temporary file is taken from.
func (f *faulty) Info(name string) (os.FileInfo, error) {
	if err := f.fails("info", name); err != nil {
		return nil, err
	}
	return os.Lstat(filepath.Join(f.URI(), name))
}

// walked reads all names of a disk.
func walked(disk fs.Filesystem) (map[string]Found, []string, error) {
	found, order := map[string]Found{}, []string{}
	walker := &Walker{Disk: adapt.Directory(disk), Take: func(one Found) error {
		found[one.Name] = one
		order = append(order, one.Name)
		return nil
	}}
	err := walker.Walk()
	return found, order, err
}

// aTree is a directory with what a walk may meet.
func aTree(t *testing.T) fs.Filesystem {
	room := t.TempDir()
	for _, directory := range []string{"a/b", "a.d", "c/d"} {
		if err := os.MkdirAll(filepath.Join(room, directory), 0o755); err != nil {
			t.Fatal(err)
		}
	}
	for _, file := range []string{"a/b/x", "a/y", "a.d/x", "c/d/x", "z"} {
		if err := os.WriteFile(filepath.Join(room, file), []byte(file), 0o600); err != nil {
			t.Fatal(err)
		}
	}
	if err := os.Symlink("z", filepath.Join(room, "a/l")); err != nil {
		t.Fatal(err)
	}
	return fs.NewFilesystem(fs.FilesystemTypeBasic, room)
}

// Each call of a walk fails for each name, in each way: the name is told as what it is, or why it isn't known, and all others are as before.
func TestEachCallOfAWalkThatFails(t *testing.T) {
	disk := aTree(t)
	whole, order, err := walked(disk)
	if err != nil || len(order) != 11 {
		t.Fatal(order, err)
	}
	failed := 0
	for _, call := range []string{"list", "stat", "readlink"} {
		for _, name := range append([]string{"."}, order...) {
			for kind, cause := range map[string]error{part.Unreadable: syscall.EACCES, part.Damaged: syscall.EIO} {
				on := &faulty{Filesystem: disk, call: call, name: name, err: cause}
				found, met, err := walked(on)
				if on.failed == 0 {
					continue
				}
				failed++
				if call == "list" && name == "." {
					if !errors.Is(err, cause) || len(met) > 0 {
						t.Errorf("the folder can't be listed: %v, %v", met, err)
					}
					continue
				}
				if err != nil {
					t.Errorf("%s of %s: %v", call, name, err)
				}
				checkFault(t, on, kind, found, whole)
			}
		}
	}
	if failed < 20 {
		t.Errorf("only %d calls failed", failed)
	}
}

// checkFault checks what a walk found where a call failed, against what it finds else.
func checkFault(t *testing.T, on *faulty, kind string, found, whole map[string]Found) {
	for name, before := range whole {
		at, isThere := found[name]
		isBelow := strings.HasPrefix(name, on.name+"/")
		switch {
		case isBelow:
			if isThere {
				t.Errorf("%s of %s: what is below was read", on.call, on.name)
			}
		case name == on.name && on.call != "list":
			if at.Node != nil || at.Out == nil || at.Out.Kind != kind || at.Out.Below {
				t.Errorf("%s of %s: %+v", on.call, on.name, at)
			}
		case !reflect.DeepEqual(at, before):
			t.Errorf("%s of %s: %s is %+v, not %+v", on.call, on.name, name, at, before)
		}
	}
	if out := found[on.name+"/"].Out; on.call == "list" && (out == nil || out.Kind != kind || !out.Below) {
		t.Errorf("what is below %s isn't told as left out: %v", on.name, out)
	}
}

// What a disk fails to give of a temporary file is never the same twice, so that the name it is for counts as in motion. Where nothing is, that is the same.
func TestTheStampOfATemporaryFile(t *testing.T) {
	disk := aTree(t)
	for cause, isSame := range map[error]bool{syscall.EIO: false, syscall.ENOENT: true, nil: true} {
		walker := &Walker{Disk: adapt.Directory(disk)}
		if cause != nil {
			walker.Disk = adapt.Directory(&faulty{Filesystem: disk, call: "info", name: "z", err: cause})
		}
		first := walker.StampOf("z")
		time.Sleep(time.Millisecond)
		if again := walker.StampOf("z"); (again == first) != isSame {
			t.Errorf("%v: %q and %q", cause, first, again)
		}
	}
}

// A walk ends where whoever takes its names fails.
func TestAWalkWhoseNamesNobodyTakes(t *testing.T) {
	disk := aTree(t)
	_, order, _ := walked(disk)
	for _, on := range []fs.Filesystem{disk, &faulty{Filesystem: disk, call: "stat", name: "a/y", err: syscall.EIO},
		&faulty{Filesystem: disk, call: "list", name: "a/b", err: syscall.EIO}} {
		for _, name := range append([]string{"a/b/"}, order...) {
			met := 0
			walker := &Walker{Disk: adapt.Directory(on), Take: func(one Found) error {
				if one.Name == name || met > 0 {
					met++
					return errors.New("no room")
				}
				return nil
			}}
			if err := walker.Walk(); (err != nil) != (met > 0) || met > 1 {
				t.Errorf("%s: %v, and %d names came behind", name, err, met-1)
			}
		}
	}
}

// fileAt gives a file to be hashed as it stands at a path.
func fileAt(t *testing.T, path string) File {
	return File{Disk: adapt.Directory(fs.NewFilesystem(fs.FilesystemTypeBasic, filepath.Dir(path))), Name: filepath.Base(path), Stamp: StampAt(path), Node: nodeAt(t, path),
		BlockSizes: []int64{protocol.MinBlockSize}}
}

// What fails while a file is read is told, and never hashed as if it were read: the disk, and a file that isn't what it was.
func TestAFileThatCannotBeHashed(t *testing.T) {
	room := t.TempDir()
	path := filepath.Join(room, "files/file")
	if err := os.Mkdir(filepath.Dir(path), 0o755); err != nil {
		t.Fatal(err)
	}
	if err := os.WriteFile(path, []byte("hello"), 0o600); err != nil {
		t.Fatal(err)
	}
	memory := fileAt(t, "/proc/self/mem") // its first bytes can't be read
	memory.Node.Size = 5
	unseen := fileAt(t, path)
	unseen.Disk = adapt.Directory(&faulty{Filesystem: fs.NewFilesystem(fs.FilesystemTypeBasic, filepath.Dir(path)), call: "stat", name: "file", err: syscall.EIO})
	symlink := filepath.Join(room, "files/link")
	if err := os.Symlink(path, symlink); err != nil {
		t.Fatal(err)
	}
	for why, row := range map[string]struct {
		file      File
		isChanged bool
		cause     error
	}{
		"the disk fails":                  {memory, false, syscall.EIO},
		"it fails as all is read":         {unseen, false, syscall.EIO},
		"nothing is there":                {changed(fileAt(t, path), func(file *File) { file.Name = "gone" }), true, nil},
		"a symlink took its place":        {changed(fileAt(t, path), func(file *File) { file.Name = "link" }), true, nil},
		"another file is there":           {changed(fileAt(t, path), func(file *File) { file.Stamp = Stamp{} }), true, nil},
		"it is longer":                    {changed(fileAt(t, path), func(file *File) { file.Node.Size-- }), true, nil},
		"it is shorter":                   {changed(fileAt(t, path), func(file *File) { file.Node.Size++ }), true, nil},
		"its second isn't the same":       {changed(fileAt(t, path), func(file *File) { file.Node.ModifiedS++ }), true, nil},
		"a part of its second isn't that": {changed(fileAt(t, path), func(file *File) { file.Node.ModifiedNs++ }), true, nil},
		"it has too long a name":          {changed(fileAt(t, path), func(file *File) { file.Name = strings.Repeat("x", 300) }), false, syscall.ENAMETOOLONG},
	} {
		pool := NewPool(1)
		contents, differ, data, err := pool.Begin(row.file).Wait()
		pool.Close()
		if contents != nil || differ != nil || data != nil || err == nil || errors.Is(err, ErrChanged) != row.isChanged || row.cause != nil && !errors.Is(err, row.cause) {
			t.Errorf("%s: %v, %v", why, contents, err)
		}
		if opened := openedIn(t, room); opened > 0 {
			t.Errorf("%s: %d files are open still", why, opened)
		}
	}
	if _, _, _, err := NewPool(1).Begin(fileAt(t, path)).Wait(); err != nil || openedIn(t, room) > 0 {
		t.Errorf("a file that is as it was: %v, and %d are open still", err, openedIn(t, room))
	}
}

func changed(file File, change func(file *File)) File {
	change(&file)
	return file
}

// The first block that differs is told with its hash as it is recorded and as it is found: what isn't there has none.
func TestTheFirstBlockThatDiffers(t *testing.T) {
	hash := func(of byte) *part.Hash {
		made := part.Hash(sha256.Sum256([]byte{of}))
		return &made
	}
	hashes := func(text string) [][32]byte {
		var made [][32]byte
		for at := range text {
			made = append(made, *hash(text[at]))
		}
		return made
	}
	for _, row := range []struct {
		recorded, found string
		blocks          int64 // of the whole file, where it isn't hashed to its end
		first           part.Pair
		ranges          [][2]int64
	}{
		{"ab", "ax", 0, part.Pair{Recorded: hash('b'), Found: hash('x')}, [][2]int64{{1, 1}}},
		{"ab", "abc", 0, part.Pair{Found: hash('c')}, [][2]int64{{2, 2}}},
		{"abc", "ab", 0, part.Pair{Recorded: hash('c')}, [][2]int64{{2, 2}}},
		{"abc", "", 0, part.Pair{Recorded: hash('a')}, [][2]int64{{0, 2}}},
		{"ab", "ab", 5, part.Pair{}, [][2]int64{{2, 4}}},
		{"abc", "axc", 5, part.Pair{Recorded: hash('b'), Found: hash('x')}, [][2]int64{{1, 1}, {3, 4}}},
	} {
		differ := Compare(hashes(row.recorded), hashes(row.found))
		if row.blocks > 0 {
			differ = CompareBegin(hashes(row.recorded), hashes(row.found), row.blocks)
		}
		count := int64(0)
		for _, ends := range row.ranges {
			count += ends[1] - ends[0] + 1
		}
		if !reflect.DeepEqual(differ.First, row.first) || !reflect.DeepEqual(differ.Ranges, row.ranges) || differ.Count != count {
			t.Errorf("%s, %s: %+v", row.recorded, row.found, differ)
		}
	}
}

// Once a piece of a file couldn't be read, no more pieces are begun, and whoever waits for the file is told why.
func TestALongFileThatCannotBeRead(t *testing.T) {
	const size = int64(1) << 40
	room, node := sparseFile(t, size)
	file := changed(fileAt(t, filepath.Join(room, "file")), func(file *File) { file.Name, file.Node, file.Longest = "gone", node, size })
	pool := NewPool(2)
	defer pool.Close()
	job := pool.Begin(file)
	if _, _, _, err := job.Wait(); !errors.Is(err, ErrChanged) || int64(len(job.hashes[0])) > size/pieceBytes/2 {
		t.Errorf("%v, and %d pieces were begun", err, len(job.hashes[0]))
	}
}
