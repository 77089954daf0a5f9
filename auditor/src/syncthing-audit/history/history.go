// Package history keeps, from one audit to the next, what was read of each file and when, and since when each fault is found. So it sees what no
// comparison of devices can: bytes that changed on all of them under one time.
//
// It stands in a directory with a LevelDB, as Syncthing 1's own index does. Whatever ends a process leaves it as it was after some write.
package history

import (
	"errors"
	"fmt"
	"os"
	"time"

	"github.com/syndtr/goleveldb/leveldb"
	"github.com/syndtr/goleveldb/leveldb/opt"
	"github.com/syndtr/goleveldb/leveldb/storage"
	"github.com/syndtr/goleveldb/leveldb/util"
)

// format is the version of what stands in a history.
const format = "1"

// ErrBusy says that another process has the history open.
var ErrBusy = errors.New("another run has this history open")

// History is an open history.
type History struct {
	db    *leveldb.DB
	files storage.Storage
	now   func() time.Time
}

// Open opens the history in a directory, and makes both where they aren't there. Nobody but their user may read them: they have the names of files.
func Open(directory string) (*History, error) {
	if err := os.MkdirAll(directory, 0o700); err != nil {
		return nil, err
	}
	if err := checkDirectory(directory); err != nil {
		return nil, told(directory, err)
	}
	files, err := storage.OpenFile(directory, false)
	if err != nil {
		return nil, told(directory, err)
	}
	opened, err := openIn(files)
	if err != nil {
		files.Close()
		return nil, told(directory, err)
	}
	return opened, nil
}

// openIn opens the history that these files have.
func openIn(files storage.Storage) (*History, error) {
	if err := checkLogs(files); err != nil {
		return nil, err
	}
	// The last write may be there in part, where a process was killed: it counts as not made.
	db, err := leveldb.Open(files, &opt.Options{Strict: opt.DefaultStrict})
	if err != nil {
		return nil, err
	}
	is, err := db.Get(keyOfFormat(), nil)
	if err == leveldb.ErrNotFound {
		err = db.Put(keyOfFormat(), []byte(format), &opt.WriteOptions{Sync: true})
	} else if err == nil && string(is) != format {
		err = fmt.Errorf("its format is %q, and this program knows %s", is, format)
	}
	if err != nil {
		db.Close()
		return nil, err
	}
	return &History{db, files, time.Now}, nil
}

// told says which history can't be opened.
func told(directory string, err error) error {
	if isBusy(err) {
		err = ErrBusy
	}
	return fmt.Errorf("the history in %s: %w", directory, err)
}

// Close closes the history.
func (h *History) Close() error {
	err := h.db.Close()
	if after := h.files.Close(); err == nil {
		err = after
	}
	return err
}

// each gives all keys that begin so, with their values, rising.
func (h *History) each(prefix []byte, take func(key, value []byte) error) error {
	found := h.db.NewIterator(util.BytesPrefix(prefix), nil)
	defer found.Release()
	for found.Next() {
		if err := take(found.Key(), found.Value()); err != nil {
			return err
		}
	}
	return found.Error()
}

// writes are what is to be written: so much at once that memory has room for it.
type writes struct {
	to    *leveldb.DB
	batch leveldb.Batch
}

// mostWaiting is how many bytes wait at most until they are written; in tests fewer do.
var mostWaiting = 1 << 20

func (w *writes) put(key, value []byte) error {
	w.batch.Put(key, value)
	return w.writeIfFull()
}

func (w *writes) remove(key []byte) error {
	w.batch.Delete(key)
	return w.writeIfFull()
}

func (w *writes) writeIfFull() error {
	if len(w.batch.Dump()) < mostWaiting {
		return nil
	}
	err := w.to.Write(&w.batch, nil)
	w.batch.Reset()
	return err
}

// end writes what waits, and comes back once all is on the disk.
func (w *writes) end() error { return w.to.Write(&w.batch, &opt.WriteOptions{Sync: true}) }
