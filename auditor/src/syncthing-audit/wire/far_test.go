package wire

import (
	"context"
	"crypto/sha256"
	"reflect"
	"strings"
	"testing"

	entries "syncthing-audit/device"
	"syncthing-audit/disk"
	"syncthing-audit/message"
)

// lengthen has the device say that its file has so many bytes, all of them 0, and gives how far it is asked for bytes and for lengths. It fails to
// read a block where that is asked for.
func (l *looker) lengthen(length int64, fails bool) (bytes, lengths func() int64) {
	l.connect()
	var asked, farthest int64
	l.device.mutex.Lock()
	defer l.device.mutex.Unlock()
	l.device.lie = func(int64, int) uint64 { return codeNone }
	l.device.hears = func(offset, size int64) uint64 {
		if size == 1 { // of a length
			farthest = max(farthest, offset)
			if offset < length {
				return codeNoSuchFile
			}
			return codeNone
		}
		asked = max(asked, offset+size)
		if fails {
			return 1
		}
		return codeNone
	}
	locked := func(number *int64) func() int64 {
		return func() int64 {
			l.device.mutex.Lock()
			defer l.device.mutex.Unlock()
			return *number
		}
	}
	return locked(&asked), locked(&farthest)
}

// A file is asked for up to its end or, where it is longer than its record by very much, up to where that goes. Nobody asks behind the end of any file.
func TestHowFarAFileIsRead(t *testing.T) {
	looker := &looker{t: t, observer: newObserver(t)}
	const blockSize, recorded = 16 << 20, 33 << 20
	for _, row := range []struct{ length, recorded, to int64 }{
		{recorded, recorded, recorded}, {recorded + disk.MostBeyond, recorded, recorded + disk.MostBeyond}, {recorded + disk.MostBeyond + 1, recorded, recorded},
		{6, 2 * disk.MostBeyond, 6}, {farBehind, recorded, recorded},
	} {
		bytes, lengths := looker.lengthen(row.length, true)
		asker := &asker{of: looker.connection.Folders[0], room: newRoom()}
		found, err := asker.read(context.Background(), "a", row.recorded, blockSize)
		if err != nil || found.State != Failed || bytes() != row.to || lengths() > farBehind {
			t.Errorf("%+v: %s, asked for up to %d, for lengths up to %d, %v", row, found.State, bytes(), lengths(), err)
		}
		if asker.room.requests != 0 || asker.room.bytes != 0 {
			t.Errorf("%+v: %d requests of %d bytes are under way still", row, asker.room.requests, asker.room.bytes)
		}
	}
}

// A file that is longer than its record by very much differs in each block that the record hasn't, and in what differs before.
func TestAFileOfWhichTheEndIsNotRead(t *testing.T) {
	const size = 2*block + 5
	zeros := strings.Repeat("\x00", size)
	for _, row := range []struct {
		recorded string
		ranges   [][2]int64
	}{{zeros, [][2]int64{{3, 32770}}}, {zeros[:block] + "x" + zeros[block+1:], [][2]int64{{1, 1}, {3, 32770}}}} {
		looker := &looker{t: t, observer: newObserver(t)}
		_, _ = looker.lengthen(size+disk.MostBeyond+1, false)
		index := NewIndex(42)
		if err := take(index, file{name: "a", data: row.recorded, sequence: 1}); err != nil {
			t.Fatal(err)
		}
		err := looker.connection.Folders[0].Bytes(context.Background(), index, all, func(_ entries.Entry, found Found) error {
			if found.State != Differs || found.Size != size+disk.MostBeyond+1 || found.Read() != size || found.Differ == nil || !reflect.DeepEqual(found.Differ.Ranges, row.ranges) {
				t.Errorf("%s, %d bytes, %d are read, %+v", found.State, found.Size, found.Read(), found.Differ)
			} else if pair := found.Differ.First; len(row.ranges) > 1 && (pair.Found == nil || pair.Recorded == nil || *pair.Found != sha256.Sum256([]byte(zeros[:block]))) {
				t.Errorf("%+v", pair)
			}
			return nil
		})
		if err != nil {
			t.Error(err)
		}
	}
}

// Of what differs it is told what was recorded and what is found, each as itself.
func TestWhichHashesDiffer(t *testing.T) {
	found, _ := look(t, map[string]string{"a": "text"}, func(f *fake) { f.disk["a"] = "tent" })
	first := found["a"].Differ.First
	if first.Recorded == nil || first.Found == nil || *first.Recorded != sha256.Sum256([]byte("text")) || *first.Found != sha256.Sum256([]byte("tent")) {
		t.Errorf("%+v", first)
	}
}

// A name that no document has isn't asked for where nothing is recorded of it; another one without a record is.
func TestNamesThatNoDocumentHas(t *testing.T) {
	looker := &looker{t: t, observer: newObserver(t)}
	looker.connect()
	index := NewIndex(42)
	oddType := message.AppendNumber(file{name: "of an odd type", sequence: 3}.text(), message.FileType, 77)
	if err := index.Put(file{name: "../odd", data: "x", sequence: 1}.text(), file{name: "plain", deleted: true, sequence: 2}.text(), oddType); err != nil {
		t.Fatal(err)
	}
	states := map[string]State{}
	if err := looker.connection.Folders[0].Bytes(context.Background(), index, all, func(entry entries.Entry, found Found) error { states[entry.Name] = found.State; return nil }); err != nil {
		t.Fatal(err)
	}
	if due := map[string]State{"plain": Missing, "of an odd type": Missing}; !reflect.DeepEqual(states, due) {
		t.Errorf("%v in place of %v", states, due)
	}
}
