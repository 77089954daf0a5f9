package disk

import (
	"os"
	"path/filepath"
	"reflect"
	"testing"
	"time"

	"github.com/syncthing/syncthing/lib/fs"
	"github.com/syncthing/syncthing/lib/protocol"
	"syncthing-audit/adapt"
	"syncthing-audit/part"
)

// sparseFile makes a file of so many bytes, which takes none of a disk: in memory, where files may be that long.
func sparseFile(t *testing.T, size int64) (string, *part.Node) {
	room, err := os.MkdirTemp("/dev/shm", "syncthing-audit-test-")
	if err != nil {
		t.Skip(err)
	}
	t.Cleanup(func() { os.RemoveAll(room) })
	path := filepath.Join(room, "file")
	if err := os.WriteFile(path, nil, 0o600); err != nil {
		t.Fatal(err)
	}
	if err := os.Truncate(path, size); err != nil {
		t.Skip("no file is as long here: ", err)
	}
	return room, nodeAt(t, path)
}

// A file that is far longer than its record is hashed as far as that goes: its size decides. No other file is taken for the same.
func TestAFileFarLongerThanItsRecord(t *testing.T) {
	pool := NewPool(2)
	defer pool.Close()
	const block = int64(protocol.MinBlockSize)
	for _, size := range []int64{15 << 40, 1 << 62, 1<<63 - 1} {
		room, node := sparseFile(t, size)
		zeros := scanned(t, make([]byte, block), int(block))
		file := File{Disk: adapt.Directory(fs.NewFilesystem(fs.FilesystemTypeBasic, room)), Name: "file", Stamp: StampAt(filepath.Join(room, "file")), Node: node,
			BlockSizes: []int64{block}, Longest: block, Recorded: zeros}
		before := pool.Hashed()
		contents, differ, _, err := pool.Begin(file).Wait()
		if err != nil {
			t.Fatal(err)
		}
		blocks := (size-1)/block + 1
		if read := pool.Hashed() - before; read != pieceBytes || node.Unread != size-pieceBytes {
			t.Errorf("%d bytes: %d are hashed, %d aren't", size, read, node.Unread)
		}
		if differ == nil || differ.Count != blocks-1 || !reflect.DeepEqual(differ.Ranges, [][2]int64{{1, blocks - 1}}) {
			t.Errorf("%d bytes: %+v", size, differ)
		}
		if len(contents) != 1 || contents[0].Size != size || contents[0].Hash == HashOf(zeros) {
			t.Errorf("%d bytes: %+v", size, contents)
		}
	}
}

// A file that is as long as a record says, however long that is, takes room for the hashes of what is read of it alone.
func TestAFileAsLongAsAnyNumber(t *testing.T) {
	pool := NewPool(2)
	defer pool.Close()
	const size = int64(1 << 62)
	room, node := sparseFile(t, size)
	file := File{Disk: adapt.Directory(fs.NewFilesystem(fs.FilesystemTypeBasic, room)), Name: "file", Stamp: StampAt(filepath.Join(room, "file")), Node: node,
		BlockSizes: []int64{protocol.MinBlockSize, protocol.MaxBlockSize}, Longest: size}
	go func() {
		for pool.Hashed() == 0 {
			time.Sleep(time.Millisecond)
		}
		pool.Skip()
	}()
	job := pool.Begin(file)
	if _, _, _, err := job.Wait(); err != nil {
		t.Error(err)
	}
	if pieces := len(job.hashes[0]); pieces < 1 || int64(pieces) > pool.Hashed()/pieceBytes+100 {
		t.Errorf("there is room for %d pieces, and %d bytes are hashed", pieces, pool.Hashed())
	}
}

// A file is hashed to its end where it is longer than its record by less, or as long as another record of it.
func TestFilesHashedToTheirEnds(t *testing.T) {
	for _, one := range []struct{ size, longest, length int64 }{
		{0, 0, 0}, {5, 0, 5}, {MostBeyond, 0, MostBeyond}, {MostBeyond + 1, 0, pieceBytes}, {MostBeyond + 1, 1, MostBeyond + 1},
		{15 << 40, 15 << 40, 15 << 40}, {5, 15 << 40, 5}, {1 << 62, pieceBytes, 2 * pieceBytes}, {1<<63 - 1, pieceBytes - 1, pieceBytes},
	} {
		file := File{Node: &part.Node{Size: one.size}, Longest: one.longest}
		if file.Length() != one.length || file.isCut() != (one.length < one.size) {
			t.Errorf("%+v: %d", one, file.Length())
		}
	}
}
