package history

import (
	"encoding/binary"
	"time"

	"github.com/syndtr/goleveldb/leveldb/iterator"
	"github.com/syndtr/goleveldb/leveldb/util"
)

// AskedFor says when a file's bytes were asked for, whatever came of that, and of which record it was then.
type AskedFor struct {
	At       int64 // in seconds since 1970
	Sequence int64 // of the record
}

// Waiting is what isn't read yet of a device's files in a folder, since each look reads so many bytes.
type Waiting struct {
	Folder     string     `json:"folder"`
	Device     string     `json:"device"`
	Number     uint64     `json:"-"` // the device's
	Files      int64      `json:"files"`
	Bytes      int64      `json:"bytes"`
	Never      int64      `json:"never_files"` // of these files those that were never read as they are recorded now
	NeverBytes int64      `json:"never_bytes"`
	Oldest     *time.Time `json:"oldest,omitempty"` // of the others: when the one was read that waits longest
}

// lengthOfAsked is that of two numbers.
const lengthOfAsked = 16

func (a AskedFor) bytes() []byte {
	return binary.BigEndian.AppendUint64(binary.BigEndian.AppendUint64(nil, uint64(a.At)), uint64(a.Sequence))
}

func readAsked(value []byte) (AskedFor, error) {
	if len(value) != lengthOfAsked {
		return AskedFor{}, errValue
	}
	return AskedFor{int64(binary.BigEndian.Uint64(value)), int64(binary.BigEndian.Uint64(value[8:]))}, nil
}

// AskedReader goes through what was asked for of a device in a folder, in the order of names.
type AskedReader struct {
	all    iterator.Iterator
	now    time.Time
	prefix int
	isEnd  bool
}

// AskedReader begins before the first name.
func (h *History) AskedReader(folder string, device uint64) *AskedReader {
	prefix := keyOfAsked(folder, device, "")
	reader := &AskedReader{all: h.db.NewIterator(util.BytesPrefix(prefix), nil), now: h.now(), prefix: len(prefix)}
	reader.isEnd = !reader.all.Next()
	return reader
}

// name gives the name at which the reader is.
func (r *AskedReader) name() string { return string(r.all.Key()[r.prefix:]) }

// Of gives what was asked for of a name, which is behind the one before. When that was isn't known where a clock that was wrong says that it is still to
// come: the name would wait until then.
func (r *AskedReader) Of(name string) (AskedFor, bool, error) {
	for !r.isEnd && r.name() < name {
		r.isEnd = !r.all.Next()
	}
	if r.isEnd || r.name() != name {
		return AskedFor{}, false, r.all.Error()
	}
	asked, err := readAsked(r.all.Value())
	if err != nil || asked.At > r.now.Unix() {
		return AskedFor{}, false, err
	}
	return asked, true, nil
}

// Release lets go of the reader.
func (r *AskedReader) Release() { r.all.Release() }

// AskedWriter keeps what was asked for of a device in a folder, in the order of names. What it passes over is forgotten.
type AskedWriter struct {
	*AskedReader
	writes
	folder string
	device uint64
}

// AskedWriter begins before the first name.
func (h *History) AskedWriter(folder string, device uint64) *AskedWriter {
	return &AskedWriter{h.AskedReader(folder, device), writes{to: h.db}, folder, device}
}

// forget forgets the names before this one or, where it is empty, all that are left.
func (w *AskedWriter) forget(before string) error {
	for !w.isEnd && (before == "" || w.name() < before) {
		if err := w.remove(keyOfAsked(w.folder, w.device, w.name())); err != nil {
			return err
		}
		w.isEnd = !w.all.Next()
	}
	return w.all.Error()
}

// Stay leaves a name as it is.
func (w *AskedWriter) Stay(name string) error {
	err := w.forget(name)
	if !w.isEnd && w.name() == name {
		w.isEnd = !w.all.Next()
	}
	return err
}

// Put keeps that a name was asked for.
func (w *AskedWriter) Put(name string, asked AskedFor) error {
	if err := w.Stay(name); err != nil {
		return err
	}
	return w.put(keyOfAsked(w.folder, w.device, name), asked.bytes())
}

// End forgets what is behind the last name, and comes back once all is on the disk.
func (w *AskedWriter) End() error {
	if err := w.forget(""); err != nil {
		return err
	}
	return w.end()
}
