package wire

import (
	"encoding/binary"
	"errors"
	"fmt"
	"math"

	"github.com/syndtr/goleveldb/leveldb"
	ldberrors "github.com/syndtr/goleveldb/leveldb/errors"
	"github.com/syndtr/goleveldb/leveldb/iterator"
	"github.com/syndtr/goleveldb/leveldb/opt"
	"github.com/syndtr/goleveldb/leveldb/storage"
	"github.com/syndtr/goleveldb/leveldb/util"
	"syncthing-audit/device"
	"syncthing-audit/part"
)

// Index is a device's own index of a folder, as it told it: of each name the newest record. It stands in a LevelDB, as Syncthing 1's own index does, so
// an index of any length takes little memory, and whatever ends the program leaves it as it was after some message.
type Index struct {
	ID      uint64
	Highest int64 // the highest sequence; all up to there is had

	db    *leveldb.DB
	files storage.Storage
	read  leveldb.Reader // the database, or how it was at some moment
}

// NewIndex gives an index in memory, of which nothing is had.
func NewIndex(id uint64) *Index {
	index, err := openIndex(storage.NewMemStorage())
	if err != nil {
		panic(err) // of what is in memory
	}
	index.ID = id
	return index
}

// OpenIndex opens the index that stands in a directory; one of which nothing is had where none does.
func OpenIndex(directory string) (*Index, error) {
	files, err := storage.OpenFile(directory, false)
	if err != nil {
		return nil, fmt.Errorf("the index in %s: %w", directory, err)
	}
	index, err := openIndex(files)
	if err != nil {
		files.Close()
		return nil, fmt.Errorf("the index in %s: %w", directory, err)
	}
	return index, nil
}

var errNoIndex = errors.New("it is none")

// openIndex opens the index that these files have. The last write may be there in part, where a process was killed: it counts as not made.
func openIndex(files storage.Storage) (*Index, error) {
	db, err := leveldb.Open(files, &opt.Options{Strict: opt.DefaultStrict})
	if err != nil {
		return nil, err
	}
	index := &Index{db: db, files: files, read: db}
	about, err := db.Get(keyOfHead, nil)
	switch {
	case errors.Is(err, leveldb.ErrNotFound):
		return index, nil
	case err == nil && len(about) != bytesOfHead:
		err = errNoIndex
	}
	if err != nil {
		db.Close()
		return nil, err
	}
	index.ID, index.Highest = binary.BigEndian.Uint64(about), int64(binary.BigEndian.Uint64(about[8:]))
	return index, nil
}

// IsDamaged says whether an index can't be opened since its files aren't what was written.
func IsDamaged(err error) bool {
	var damaged *storage.ErrCorrupted
	return errors.As(err, &damaged) || ldberrors.IsCorrupted(errors.Unwrap(err)) || errors.Is(err, errNoIndex)
}

// Close closes the index.
func (i *Index) Close() error {
	err := i.db.Close()
	if after := i.files.Close(); err == nil {
		err = after
	}
	return err
}

// keyOfHead is where an index has its id and its highest sequence, and bytesOfHead how long these are.
var keyOfHead = []byte("h")

const bytesOfHead = 16

// prefixOfNames stands before a name in a key.
const prefixOfNames = "n"

func keyOf(name string) []byte { return append([]byte(prefixOfNames), name...) }

// write makes a batch of changes, after which all up to a sequence is had. All of it is made, or nothing.
func (i *Index) write(batch *leveldb.Batch, highest int64) error {
	head := binary.BigEndian.AppendUint64(binary.BigEndian.AppendUint64(nil, i.ID), uint64(highest))
	batch.Put(keyOfHead, head)
	if err := i.db.Write(batch, nil); err != nil {
		return err
	}
	i.Highest = highest
	return nil
}

// mostCleared is how many bytes of names are taken away at once.
const mostCleared = 1 << 20

// clear takes away all records, a few at a time: a device may have sent any number of them. From its begin on nothing counts as had.
func (i *Index) clear() error {
	batch := new(leveldb.Batch)
	if err := i.write(batch, 0); err != nil {
		return err
	}
	batch.Reset()
	all := i.db.NewIterator(util.BytesPrefix([]byte(prefixOfNames)), nil)
	defer all.Release()
	for all.Next() {
		if batch.Delete(all.Key()); len(batch.Dump()) < mostCleared {
			continue
		}
		if err := i.db.Write(batch, nil); err != nil {
			return err
		}
		batch.Reset()
	}
	if err := all.Error(); err != nil {
		return err
	}
	return i.db.Write(batch, nil)
}

// begin begins an index of this id, of which nothing is had.
func (i *Index) begin(id uint64) error {
	if err := i.clear(); err != nil {
		return err
	}
	i.ID = id
	return i.write(new(leveldb.Batch), 0)
}

// snapshot gives the index as it is now. It is closed with the index.
func (i *Index) snapshot() (*Index, error) {
	read, err := i.db.GetSnapshot()
	return &Index{ID: i.ID, Highest: i.Highest, db: i.db, files: i.files, read: read}, err
}

// Get gives the entry of a name, and whether there is one.
func (i *Index) Get(name string) (device.Entry, bool, error) {
	text, err := i.read.Get(keyOf(name), nil)
	if errors.Is(err, leveldb.ErrNotFound) {
		return device.Entry{}, false, nil
	}
	if err != nil {
		return device.Entry{}, false, err
	}
	entry, err := entryOf(text)
	return entry, err == nil, err
}

// Each gives all entries, rising by name.
func (i *Index) Each(take func(device.Entry) error) error {
	all := i.read.NewIterator(util.BytesPrefix([]byte(prefixOfNames)), nil)
	defer all.Release()
	for all.Next() {
		entry, err := entryOf(all.Value())
		if err == nil {
			err = take(entry)
		}
		if err != nil {
			return err
		}
	}
	return all.Error()
}

// Names go through the names of an index, rising.
type Names struct {
	all   iterator.Iterator
	isEnd bool
}

// Names begins at the first name.
func (i *Index) Names() *Names {
	names := &Names{all: i.read.NewIterator(util.BytesPrefix([]byte(prefixOfNames)), nil)}
	names.Next()
	return names
}

// Name gives the name at which they are, and whether there is one.
func (n *Names) Name() (string, bool) {
	if n.isEnd {
		return "", false
	}
	return string(n.all.Key()[len(prefixOfNames):]), true
}

// Next goes on.
func (n *Names) Next() { n.isEnd = !n.all.Next() }

// Close lets go of the index, and says what couldn't be read of it.
func (n *Names) Close() error {
	defer n.all.Release()
	return n.all.Error()
}

// Count counts the names.
func (i *Index) Count() (count int64, err error) {
	all := i.read.NewIterator(util.BytesPrefix([]byte(prefixOfNames)), nil)
	defer all.Release()
	for all.Next() {
		count++
	}
	return count, all.Error()
}

// entryOf reads a record that was taken before. Its blocks' hashes are copied from it.
func entryOf(text []byte) (device.Entry, error) {
	read, err := entryIn(text, math.MaxInt)
	if err != nil {
		return device.Entry{}, err
	}
	if string(read.Encrypted) == sealed {
		return device.Entry{Name: read.Name, Out: &part.LeftOut{Kind: part.Unknown, Why: whySealed}}, nil
	}
	return device.WireEntry(read), nil
}

// Put puts records, as they are sent, into the index.
func (i *Index) Put(texts ...[]byte) error {
	batch, highest := new(leveldb.Batch), i.Highest
	for _, text := range texts {
		entry, err := entryIn(text, math.MaxInt)
		if err != nil {
			return err
		}
		batch.Put(keyOf(entry.Name), text)
		if entry.Sequence > highest {
			highest = entry.Sequence
		}
	}
	return i.write(batch, highest)
}
