package disk

import (
	"crypto/sha256"
	"os"
	"path/filepath"
	"reflect"
	"strings"
	"syscall"
	"testing"

	"github.com/syncthing/syncthing/lib/fs"
	"github.com/syncthing/syncthing/lib/protocol"
	"syncthing-audit/adapt"
	"syncthing-audit/part"
)

// What a walk tells of each kind of thing: its type, size, target, time and permissions, with a stamp where one is asked for; or why it is left out.
func TestWhatAWalkTellsOfEachKind(t *testing.T) {
	room := t.TempDir()
	path := func(name string) string { return filepath.Join(room, name) }
	long := strings.Repeat("t", 1025)
	for _, err := range []error{os.WriteFile(path("file"), []byte("hello"), 0o640), os.Mkdir(path("directory"), 0o750), os.Symlink("file", path("link")), os.Symlink(long, path("far")),
		syscall.Mkfifo(path("pipe"), 0o600), os.WriteFile(path("\xff"), []byte("odd"), 0o600), os.Chmod(path("file"), 0o640), os.Chmod(path("directory"), 0o750)} {
		if err != nil {
			t.Fatal(err)
		}
	}
	file, directory, symlink := int(protocol.FileInfoTypeFile), int(protocol.FileInfoTypeDirectory), int(protocol.FileInfoTypeSymlink)
	for _, stamps := range []bool{false, true} {
		found := map[string]Found{}
		walker := &Walker{Disk: adapt.Directory(fs.NewFilesystem(fs.FilesystemTypeBasic, room)), Stamps: stamps, Take: func(one Found) error { found[one.Name] = one; return nil }}
		if err := walker.Walk(); err != nil {
			t.Fatal(err)
		}
		for name, node := range map[string]part.Node{"file": {Type: file, Size: 5, Permissions: 0o640}, "directory": {Type: directory, Permissions: 0o750}, "link": {Type: symlink, Target: "file"}} {
			about, err := os.Lstat(path(name))
			if err != nil {
				t.Fatal(err)
			}
			at := found[name]
			node.ModifiedS, node.ModifiedNs = about.ModTime().Unix(), about.ModTime().Nanosecond()
			if name == "link" {
				node.Permissions, node.ModifiedS, node.ModifiedNs = at.Node.Permissions, at.Node.ModifiedS, at.Node.ModifiedNs
			}
			if stamps {
				node.Stamp = StampAt(path(name)).String()
			}
			if at.Out != nil || !reflect.DeepEqual(*at.Node, node) || (at.Stamp != (Stamp{})) != (stamps || name == "file") || at.Stamp != (Stamp{}) && at.Stamp.String() != walker.StampOf(name) {
				t.Errorf("%s is %+v, %+v, not %+v", name, at, at.Node, node)
			}
		}
		for name, kind := range map[string]string{"pipe": part.Special, "far": part.OddTarget, "\xff": part.OddName} {
			if at := found[name]; at.Node != nil || at.Out == nil || at.Out.Kind != kind || at.Out.Why == "" || name == "\xff" && at.Out.Bytes != 3 {
				t.Errorf("%q is %+v", name, at)
			}
		}
		if len(found) != 6 || walker.StampOf("none") != "" {
			t.Errorf("%d names, and what isn't there has the stamp %q", len(found), walker.StampOf("none"))
		}
	}
}

// A file is compared with its record block by block, and its content is the hash of all hashes.
func TestWhatAFileHasBesideItsRecord(t *testing.T) {
	path := filepath.Join(t.TempDir(), "file")
	data := make([]byte, 2*protocol.MinBlockSize)
	if err := os.WriteFile(path, data, 0o600); err != nil {
		t.Fatal(err)
	}
	block := sha256.Sum256(data[:protocol.MinBlockSize])
	whole := sha256.Sum256(append(block[:], block[:]...))
	pool := NewPool(1)
	defer pool.Close()
	for why, row := range map[string]struct {
		recorded [][32]byte
		ranges   [][2]int64
	}{"as it is recorded": {[][32]byte{block, block}, nil}, "no record": {nil, nil}, "another first block": {[][32]byte{{1}, block}, [][2]int64{{0, 0}}}, "a shorter record": {[][32]byte{block}, [][2]int64{{1, 1}}}} {
		file := fileAt(t, path)
		file.Recorded = row.recorded
		contents, differ, _, err := pool.Begin(file).Wait()
		if err != nil || contents[0].Hash != part.Hash(whole) || (differ != nil) != (row.ranges != nil) || differ != nil && !reflect.DeepEqual(differ.Ranges, row.ranges) {
			t.Errorf("%s: %v, %+v, %v", why, contents, differ, err)
		}
	}
}
