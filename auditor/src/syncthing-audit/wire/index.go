package wire

import (
	"fmt"

	"github.com/syndtr/goleveldb/leveldb"
	"google.golang.org/protobuf/encoding/protowire"
	"syncthing-audit/message"
	"syncthing-audit/secret"
)

// The numbers of the fields of an Index and of an Index Update.
const (
	indexFolder protowire.Number = 1
	indexFile   protowire.Number = 2
)

// taker takes a device's index of a folder, within limits that hold for a whole connection.
type taker struct {
	folder string
	limits *Limits
	spent  *spent
	index  *Index
	key    *secret.Key // of an encrypted folder
}

// spent is what a connection's index messages have had of its limits.
type spent struct{ bytes, records int64 }

// take counts a message.
func (s *spent) take(text []byte, limits *Limits) error {
	if s.bytes += int64(len(text)); s.bytes > limits.Index {
		return fmt.Errorf("%w: over %d bytes", TooLarge, limits.Index)
	}
	return nil
}

// take takes an Index, which stands in place of all before it, or an Index Update. The records of a message are all taken, or none.
func (t *taker) take(text []byte, isUpdate bool) error {
	if err := t.spent.take(text, t.limits); err != nil {
		return err
	}
	if id, err := idIn(text); err != nil || id != t.folder {
		return badlyIf("its index", err)
	}
	batch, highest := new(leveldb.Batch), t.index.Highest
	if !isUpdate {
		highest = 0
	}
	highest, err := t.read(text, highest, batch)
	if err != nil {
		return badlyIf("its index", err)
	}
	if !isUpdate {
		if err := t.index.clear(); err != nil {
			return err
		}
	}
	return t.index.write(batch, highest)
}

// read puts the records of a message into a batch. Their sequences rise, from what was had on: a device sends its records in that order, so that
// all up to the highest one is had.
func (t *taker) read(text []byte, highest int64, to *leveldb.Batch) (int64, error) {
	err := message.Each(text, func(field message.Field) error {
		if field.Number != indexFile {
			return nil
		}
		if t.spent.records++; t.spent.records > t.limits.Records {
			return fmt.Errorf("%w: over %d", TooManyRecords, t.limits.Records)
		}
		entry, err := entryIn(field.Text, t.limits.Name)
		if err != nil {
			return err
		}
		if entry.Sequence <= highest {
			return fmt.Errorf("%w: %d behind %d", SequenceFalls, entry.Sequence, highest)
		}
		highest = entry.Sequence
		name, record := entry.Name, field.Text
		if t.key != nil {
			name, record = t.open(entry, field.Text)
		}
		to.Put(keyOf(name), record)
		return nil
	})
	return highest, err
}

// badlyIf does the same as badly where there is an error.
func badlyIf(what string, err error) error {
	if err == nil {
		return nil
	}
	return badly(what, err)
}
