package disk

import (
	"crypto/sha256"
	"hash"
	"os"
	"path/filepath"
	"sync/atomic"
	"testing"
	"time"

	"github.com/syncthing/syncthing/lib/fs"
	"syncthing-audit/adapt"
)

// A pool sums up files by the SHA-256 that was set.
func TestTheSumThatIsSet(t *testing.T) {
	standard := NewSum
	defer func() { NewSum = standard }()
	var asked atomic.Int64
	NewSum = func() hash.Hash {
		asked.Add(1)
		return standard()
	}
	path := filepath.Join(t.TempDir(), "file")
	if err := os.WriteFile(path, []byte("hello"), 0o600); err != nil {
		t.Fatal(err)
	}
	pool := NewPool(1)
	defer pool.Close()
	file := File{Disk: adapt.Directory(fs.NewFilesystem(fs.FilesystemTypeBasic, filepath.Dir(path))), Name: "file", Stamp: StampAt(path), Node: nodeAt(t, path), BlockSizes: []int64{readBytes, 2 * readBytes}}
	contents, _, _, err := pool.Begin(file).Wait()
	if err != nil || contents[0].Hash != HashOf([][32]byte{sha256.Sum256([]byte("hello"))}) || contents[1].Hash != contents[0].Hash || asked.Load() == 0 {
		t.Errorf("%v, %v, asked %d times", contents, err, asked.Load())
	}
}

// A pool is closed once what was begun is over.
func TestAPoolIsClosed(t *testing.T) {
	pool, over := NewPool(1), atomic.Bool{}
	pool.tasks <- func() {
		time.Sleep(50 * time.Millisecond)
		over.Store(true)
	}
	if pool.Close(); !over.Load() {
		t.Error("it is closed while something goes on")
	}
}
