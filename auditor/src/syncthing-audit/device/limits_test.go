package device

import (
	"encoding/binary"
	"os"
	"path/filepath"
	"testing"

	"github.com/syncthing/syncthing/lib/db/backend"
	"github.com/syndtr/goleveldb/leveldb/util"
)

// An index is opened as a large one from a size on; one whose size isn't known as a small one.
func TestHowAnIndexIsOpened(t *testing.T) {
	room := t.TempDir()
	if tuning := tuningFor(filepath.Join(room, "none")); tuning != backend.TuningSmall {
		t.Errorf("what isn't there is opened as %v", tuning)
	}
	table := filepath.Join(room, "000001.ldb")
	if err := os.WriteFile(table, nil, 0o600); err != nil {
		t.Fatal(err)
	}
	for size, due := range map[int64]backend.Tuning{0: backend.TuningSmall, mostOfSmall: backend.TuningSmall, mostOfSmall + 1: backend.TuningLarge} {
		if err := os.Truncate(table, size); err != nil {
			t.Fatal(err)
		}
		if tuning := tuningFor(room); tuning != due {
			t.Errorf("%d bytes are opened as %v", size, tuning)
		}
	}
	if bytes, err := bytesFor(filepath.Join(room, "none")); err == nil || bytes != 0 {
		t.Errorf("%d, %v", bytes, err)
	}
}

// A chunk of no kind is damage, also where its checksum is right; each kind that there is ends a record or doesn't.
func TestKindsOfChunks(t *testing.T) {
	for kind := byte(0); kind < 8; kind++ {
		for _, length := range []int{0, 5} {
			chunk := make([]byte, bytesOfHeader+length)
			chunk[6] = kind
			binary.LittleEndian.PutUint16(chunk[4:], uint16(length))
			binary.LittleEndian.PutUint32(chunk, util.NewCRC(chunk[bytesOfHeader-1:]).Value())
			end, err := endOfRecords(chunk)
			isKind, isEnd := kind >= wholeChunk && kind <= lastChunk, kind == wholeChunk || kind == lastChunk
			if (err == nil) != isKind || isEnd && end != len(chunk) || !isEnd && end != 0 {
				t.Errorf("a chunk of %d bytes and the kind %d ends at %d, %v", length, kind, end, err)
			}
		}
	}
}

// A file that can't be read isn't copied in part, and one that is there isn't written over.
func TestFilesThatAreNotCopied(t *testing.T) {
	room := t.TempDir()
	if err := copyFile("/proc/self/mem", filepath.Join(room, "a")); err == nil { // a file whose begin nobody reads
		t.Error("what can't be read is copied")
	}
	if err := os.WriteFile(filepath.Join(room, "b"), []byte("b"), 0o600); err != nil {
		t.Fatal(err)
	}
	if err := copyFile(filepath.Join(room, "b"), filepath.Join(room, "c")); err != nil {
		t.Error(err)
	}
	if text, err := os.ReadFile(filepath.Join(room, "c")); err != nil || string(text) != "b" {
		t.Errorf("%q, %v", text, err)
	}
	if err := copyFile(filepath.Join(room, "b"), filepath.Join(room, "c")); !os.IsExist(err) {
		t.Error(err)
	}
}
