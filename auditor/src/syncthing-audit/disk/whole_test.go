package disk

import (
	"bytes"
	"crypto/sha256"
	"errors"
	"fmt"
	"os"
	"path/filepath"
	"testing"
)

// Of many files that are read at once each has its own hash, also beside some that can't be read, and none is open behind.
func TestManyFilesThatAreReadAtOnce(t *testing.T) {
	room := t.TempDir()
	if err := os.Mkdir(filepath.Join(room, "d"), 0o755); err != nil {
		t.Fatal(err)
	}
	const count = 5 * mostAhead
	pool, jobs := NewPool(2), []*Job{}
	defer pool.Close()
	dataOf := func(place int) []byte { return bytes.Repeat([]byte{byte(place)}, place*readBytes/(count-1)) }
	for place := 0; place < count; place++ {
		path := filepath.Join(room, "d", fmt.Sprint(place))
		if err := os.WriteFile(path, dataOf(place), 0o600); err != nil {
			t.Fatal(err)
		}
		file := fileAt(t, path)
		if file.Keep = place%2 == 0; place%7 == 3 {
			file.Stamp = Stamp{}
		}
		jobs = append(jobs, pool.Begin(file))
	}
	hashed := int64(0)
	for place, job := range jobs {
		contents, _, data, err := job.Wait()
		if place%7 == 3 {
			if !errors.Is(err, ErrChanged) {
				t.Errorf("%d: %v", place, err)
			}
			continue
		}
		due := dataOf(place)
		hashed += int64(len(due))
		if err != nil || len(contents) != 1 || contents[0].Hash != HashOf([][32]byte{sha256.Sum256(due)}) || job.file.Keep && !bytes.Equal(data, due) {
			t.Errorf("%d: %v, %v", place, contents, err)
		}
	}
	if pool.Hashed() != hashed || openedIn(t, room) > 0 {
		t.Errorf("%d bytes are hashed and not %d, and %d files are open", pool.Hashed(), hashed, openedIn(t, room))
	}
}

// A file that is read at once is hashed also where all workers are at something else as it comes, and where nobody waits for it.
func TestAFileThatNoWorkerIsIdleFor(t *testing.T) {
	path := filepath.Join(t.TempDir(), "file")
	if err := os.WriteFile(path, []byte("hello"), 0o600); err != nil {
		t.Fatal(err)
	}
	pool, goes := NewPool(1), make(chan struct{})
	for task := 0; task < 2+cap(pool.tasks); task++ { // each worker has one, and as many wait as have room
		pool.tasks <- func() { <-goes }
	}
	job := pool.Begin(fileAt(t, path))
	close(goes)
	pool.Close()
	if pool.Hashed() != 5 {
		t.Errorf("%d bytes are hashed", pool.Hashed())
	}
	if _, _, _, err := job.Wait(); err != nil {
		t.Error(err)
	}
}

// A pool that skips all bytes opens no file.
func TestAFileThatIsSkipped(t *testing.T) {
	path := filepath.Join(t.TempDir(), "file")
	if err := os.WriteFile(path, []byte("hello"), 0o600); err != nil {
		t.Fatal(err)
	}
	pool := NewPool(1)
	defer pool.Close()
	pool.Skip()
	file := fileAt(t, path)
	file.Name = "gone" // who opened it would say so
	job := pool.Begin(file)
	if job.pieces.Wait(); job.err != nil || pool.Hashed() != 0 {
		t.Errorf("%v, %d bytes", job.err, pool.Hashed())
	}
}

// However many work, they have some files open at most, and each at least one.
func TestHowManyFilesAreReadAhead(t *testing.T) {
	for workers, due := range map[int]int{1: 32, 8: 32, 16: 16, 100: 2, 256: 1, 1000: 1} {
		if ahead := aheadOf(workers); ahead != due {
			t.Errorf("%d workers: %d each", workers, ahead)
		}
	}
}
