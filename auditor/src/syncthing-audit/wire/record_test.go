package wire

import (
	"errors"
	"math/rand"
	"reflect"
	"strings"
	"testing"

	"github.com/syncthing/syncthing/lib/protocol"
	"google.golang.org/protobuf/encoding/protowire"
	"syncthing-audit/adapt"
	"syncthing-audit/hang"
	"syncthing-audit/message"
)

// A record that Syncthing's own package writes is read as that reads it. 1.29 writes none where another program may: there the tests on real
// devices have to do.
func TestRecordsOfSyncthing(t *testing.T) {
	for n := 0; n < 1000; n++ {
		entry := randomEntry()
		writer, is := any(&entry).(interface{ Marshal() ([]byte, error) })
		if !is {
			t.Skip("this package writes no records")
		}
		text, err := writer.Marshal()
		if err != nil {
			t.Fatal(err)
		}
		if read, err := entryIn(text, 1000); err != nil || !reflect.DeepEqual(read, entry) {
			t.Fatalf("%+v in place of %+v, %v", read, entry, err)
		}
	}
}

func randomEntry() protocol.FileInfo {
	file := protocol.FileInfo{Name: strings.Repeat("n", rand.Intn(9)), Size: rand.Int63() - 1<<62, ModifiedS: rand.Int63() - 1<<62,
		ModifiedBy: protocol.ShortID(rand.Uint64()), Sequence: rand.Int63(), Type: protocol.FileInfoType(rand.Intn(5)), Permissions: rand.Uint32(),
		Deleted: rand.Intn(2) == 0, RawInvalid: rand.Intn(2) == 0, NoPermissions: rand.Intn(2) == 0}
	adapt.SetNumber(&file.ModifiedNs, rand.Intn(1e9))
	adapt.SetNumber(&file.RawBlockSize, rand.Intn(1<<24))
	adapt.SetText(&file.SymlinkTarget, strings.Repeat("t", rand.Intn(3)))
	for n := rand.Intn(3); n > 0; n-- {
		file.Version.Counters = append(file.Version.Counters, protocol.Counter{ID: protocol.ShortID(rand.Uint64()), Value: rand.Uint64()})
	}
	for n := rand.Intn(3); n > 0; n-- {
		block := protocol.BlockInfo{Hash: make([]byte, 32), Offset: rand.Int63()}
		rand.Read(block.Hash)
		adapt.SetNumber(&block.Size, rand.Intn(1<<24))
		file.Blocks = append(file.Blocks, block)
	}
	if rand.Intn(2) == 0 {
		file.Encrypted = []byte("e")
	}
	return file
}

// Whatever a device sends in place of a record is read or refused.
func FuzzRecord(f *testing.F) {
	f.Add(file{name: "a", data: "text", sequence: 1}.text())
	f.Fuzz(func(t *testing.T, text []byte) {
		defer hang.Watch()()
		if entry, err := entryIn(text, 100); err == nil && len(entry.Name) > 100 {
			t.Error(entry.Name)
		}
	})
}

// What isn't known of a record or of an index is passed over, wherever it stands.
func TestUnknownFields(t *testing.T) {
	const unknown protowire.Number = 1000
	odd := func(text []byte) []byte {
		return message.AppendText(message.AppendNumber(append(message.AppendNumber(nil, unknown, 1), text...), unknown, 2), unknown, []byte("odd"))
	}
	counter := odd(message.AppendNumber(message.AppendNumber(nil, message.CounterID, 7), message.CounterValue, 3))
	block := odd(message.AppendText(message.AppendNumber(nil, message.BlockSize, 4), message.BlockHash, make([]byte, 32)))
	record := odd(message.AppendText(message.AppendText(message.AppendText(nil, message.FileName, []byte("a")), message.FileVersion, odd(message.AppendText(nil, message.VersionCounter, counter))), message.FileBlock, block))
	record = message.AppendNumber(record, message.FileSequence, 1)
	index := NewIndex(42)
	err := (&taker{folder: "docs", limits: &Usual, spent: new(spent), index: index}).take(odd(message.AppendText(message.AppendText(nil, indexFolder, []byte("docs")), indexFile, record)), true)
	if err != nil || index.Highest != 1 {
		t.Fatal(index.Highest, err)
	}
	read, err := entryIn(record, 9)
	if err != nil || len(read.Version.Counters) != 1 || read.Version.Counters[0] != (protocol.Counter{ID: 7, Value: 3}) || len(read.Blocks) != 1 || len(read.Blocks[0].Hash) != 32 {
		t.Errorf("%+v, %v", read, err)
	}
	for _, id := range []string{"", "other"} {
		if err := (&taker{folder: "docs", limits: &Usual, spent: new(spent), index: index}).take(indexOf(id, file{name: "b", sequence: 2}), true); err != nil || index.Highest != 1 {
			t.Errorf("%q: %d, %v", id, index.Highest, err)
		}
	}
	if err := (&taker{folder: "docs", limits: &Usual, spent: new(spent), index: index}).take([]byte{0xff}, true); !errors.Is(err, BadMessage) {
		t.Error(err)
	}
}
