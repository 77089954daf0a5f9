package disk

import (
	"bytes"
	"io"
	"os"
	"path/filepath"
	"strconv"
	"strings"
	"testing"

	"github.com/syncthing/syncthing/lib/fs"
	"github.com/syncthing/syncthing/lib/protocol"
	"golang.org/x/sys/unix"
	"syncthing-audit/adapt"
)

// bytesFromDisk gives how many bytes this process has had read from a disk up to now.
func bytesFromDisk(t *testing.T) int64 {
	told, err := os.ReadFile("/proc/self/io")
	if err != nil {
		t.Skip(err)
	}
	for _, line := range strings.Split(string(told), "\n") {
		if number := strings.TrimPrefix(line, "read_bytes: "); number != line {
			count, err := strconv.ParseInt(number, 10, 64)
			if err != nil {
				t.Fatal(err)
			}
			return count
		}
	}
	t.Skip("the system doesn't say what was read from a disk")
	return 0
}

// What is hashed comes from the disk, also where the system has it in memory: the disk may have other bytes by now.
func TestBytesComeFromTheDisk(t *testing.T) {
	for _, length := range []int{5000, readBytes, pieceBytes + 5000} {
		readsFromDisk(t, length)
	}
}

// readsFromDisk says whether a file of so many bytes is read from the disk.
func readsFromDisk(t *testing.T, length int) {
	room := t.TempDir()
	path := filepath.Join(room, "file")
	data := bytes.Repeat([]byte{7}, length)
	file, err := os.Create(path)
	if err != nil {
		t.Fatal(err)
	}
	defer file.Close()
	if _, err := file.Write(data); err != nil {
		t.Fatal(err)
	}
	if err := file.Sync(); err != nil {
		t.Fatal(err)
	}
	before := bytesFromDisk(t)
	if err := unix.Fadvise(int(file.Fd()), 0, 0, unix.FADV_DONTNEED); err != nil { // and not by letGo, which is tried here
		t.Skip(err)
	}
	if _, err := io.Copy(io.Discard, io.NewSectionReader(file, 0, int64(len(data)))); err != nil {
		t.Fatal(err)
	}
	if bytesFromDisk(t)-before < int64(len(data)) {
		t.Skip("a file system without a disk that the system knows of")
	}
	pool := NewPool(2)
	defer pool.Close()
	before = bytesFromDisk(t)
	asked := File{Disk: adapt.Directory(fs.NewFilesystem(fs.FilesystemTypeBasic, room)), Name: "file", Stamp: StampAt(path), Node: nodeAt(t, path),
		BlockSizes: []int64{protocol.MinBlockSize}}
	if _, _, _, err := pool.Begin(asked).Wait(); err != nil {
		t.Fatal(err)
	}
	if read := bytesFromDisk(t) - before; read < int64(len(data)) {
		t.Errorf("%d bytes of %d came from the disk", read, length)
	}
}
