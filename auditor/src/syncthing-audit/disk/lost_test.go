package disk

import (
	"crypto/sha256"
	"os"
	"path/filepath"
	"reflect"
	"strings"
	"syscall"
	"testing"

	"github.com/syncthing/syncthing/lib/fs"
	"github.com/syncthing/syncthing/lib/protocol"
	"syncthing-audit/adapt"
	"syncthing-audit/part"
)

// A disk that fails is told apart from a want of permission.
func TestWhyNothingIsRead(t *testing.T) {
	for _, one := range []struct {
		err       error
		kind, why string
	}{
		{syscall.EACCES, part.Unreadable, "it can't be read: read a: permission denied"},
		{syscall.EIO, part.Damaged, "the disk fails to give it: read a: input/output error"},
		{syscall.EUCLEAN, part.Damaged, "the disk fails to give it: read a: structure needs cleaning"},
		{syscall.EBADMSG, part.Damaged, "the disk fails to give it: read a: bad message"},
	} {
		err := &os.PathError{Op: "read", Path: "a", Err: one.err}
		if out := outOf("it", err); out.Kind != one.kind || out.Why != one.why || IsDamage(unread(err)) != (one.kind == part.Damaged) {
			t.Errorf("%v", out)
		}
	}
}

// What stands for bytes that the disk doesn't give is no record's: in hashes, and in bytes of each length.
func TestWhatStandsForLostBytes(t *testing.T) {
	const small = protocol.MinBlockSize
	for _, size := range []int64{1, 5, 12, small, small + 1} {
		recorded := strings.Repeat("lost\n", int(size/5)+1)[:size]
		line := &part.Name{Name: "a", Disk: &part.Node{Size: size}}
		length := size
		if length > small {
			length = small
		}
		for next := 0; next < 20; next++ {
			block := []byte(recorded[:length])
			block[0] = byte(next)
			line.Views = append(line.Views, part.Seen{Record: &part.Record{Blocks: [][32]byte{sha256.Sum256(block)}}})
		}
		job := &Job{file: File{Node: line.Disk, BlockSizes: []int64{small, 2 * small}, Keep: true}}
		job.Lose(line, unread(&os.PathError{Op: "read", Path: "a", Err: syscall.EIO}))
		if line.Disk.Lost != "read a: input/output error" || len(line.Disk.Contents) != 2 || int64(len(line.Disk.Data)) != size ||
			isRecorded(line, sha256.Sum256(line.Disk.Data[:length])) {
			t.Errorf("%d bytes: %+v", size, line.Disk)
		}
	}
}

// failing is a disk that fails to list one directory.
type failing struct {
	fs.Filesystem
	directory string
}

func (f failing) DirNames(name string) ([]string, error) {
	if name == f.directory {
		return nil, &os.PathError{Op: "readdirent", Path: name, Err: syscall.EIO}
	}
	return f.Filesystem.DirNames(name)
}

// gone is a disk that fails once a file is read.
type gone struct{ fs.Filesystem }

func (gone) Lstat(name string) (fs.FileInfo, error) {
	return nil, &os.PathError{Op: "lstat", Path: name, Err: syscall.EIO}
}

func TestADiskThatFailsAfterTheBytesAreRead(t *testing.T) {
	room := t.TempDir()
	path := filepath.Join(room, "file")
	if err := os.WriteFile(path, []byte("hello"), 0o600); err != nil {
		t.Fatal(err)
	}
	pool := NewPool(1)
	defer pool.Close()
	_, _, _, err := pool.Begin(File{Disk: adapt.Directory(gone{fs.NewFilesystem(fs.FilesystemTypeBasic, room)}), Name: "file", Stamp: StampAt(path), Node: nodeAt(t, path),
		BlockSizes: []int64{protocol.MinBlockSize}}).Wait()
	if !IsDamage(err) {
		t.Error(err)
	}
}

func TestADirectoryThatTheDiskFailsToGive(t *testing.T) {
	room := t.TempDir()
	if err := os.MkdirAll(filepath.Join(room, "a/b"), 0o755); err != nil {
		t.Fatal(err)
	}
	var found []string
	walker := &Walker{Disk: adapt.Directory(failing{fs.NewFilesystem(fs.FilesystemTypeBasic, room), "a"}), Take: func(one Found) error {
		told := one.Name
		if one.Out != nil {
			told += " " + one.Out.Kind + " " + one.Out.Why
		}
		found = append(found, told)
		return nil
	}}
	expected := []string{"a", "a/ damaged the disk fails to give the directory: readdirent a: input/output error"}
	if err := walker.Walk(); err != nil || !reflect.DeepEqual(found, expected) {
		t.Errorf("%q, %v", found, err)
	}
}

// Of all first bytes the one is taken that no record has.
func TestTheOneByteThatNoRecordHas(t *testing.T) {
	for free := 0; free < 256; free++ {
		line := &part.Name{Name: "a"}
		for next := 0; next < 256; next++ {
			if next != free {
				line.Views = append(line.Views, part.Seen{Record: &part.Record{Blocks: [][32]byte{sha256.Sum256([]byte{byte(next), 'o'})}}})
			}
		}
		if made := bytesOfNobody(line, 2, protocol.MinBlockSize); string(made) != string([]byte{byte(free), 'o'}) {
			t.Errorf("%q, where %d is free", made, free)
		}
	}
}
