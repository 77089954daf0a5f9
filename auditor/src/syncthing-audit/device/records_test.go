package device

import (
	"bytes"
	"testing"

	"github.com/syndtr/goleveldb/leveldb/journal"
)

// recordsOf gives a log with records of these lengths, and where each ends.
func recordsOf(t *testing.T, lengths ...int) ([]byte, []int) {
	var written bytes.Buffer
	to := journal.NewWriter(&written)
	var ends []int
	for _, length := range lengths {
		next, err := to.Next()
		if err == nil {
			_, err = next.Write(bytes.Repeat([]byte{'x'}, length))
		}
		if err == nil {
			err = to.Flush()
		}
		if err != nil {
			t.Fatal(err)
		}
		ends = append(ends, written.Len())
	}
	return written.Bytes(), ends
}

// Wherever a log was cut off, its whole records are found, and no more.
func TestEndOfRecords(t *testing.T) {
	// The second one goes over three blocks, behind it a block has room for no header, and the last two are in one block.
	log, ends := recordsOf(t, 10, 2*bytesOfBlock, bytesOfBlock-3*bytesOfHeader-10-3*bytesOfHeader-3, 1, 0)
	for length := 0; length <= len(log); length++ {
		expected := 0
		for _, end := range ends {
			if end <= length {
				expected = end
			}
		}
		if end, err := endOfRecords(log[:length]); err != nil || end != expected {
			t.Fatalf("cut off at %d it ends at %d, not %d: %v", length, end, expected, err)
		}
	}
}

// A header that has just room in its block is read, also where no byte stands behind it.
func TestARecordThatEndsItsBlock(t *testing.T) {
	for room := 0; room < 2*bytesOfHeader; room++ {
		log, ends := recordsOf(t, bytesOfBlock-bytesOfHeader-room, 0)
		for length := ends[0]; length <= len(log); length++ {
			due := ends[0]
			if length == ends[1] {
				due = ends[1]
			}
			if end, err := endOfRecords(log[:length]); err != nil || end != due {
				t.Errorf("with room for %d bytes, cut off at %d it ends at %d, not %d: %v", room, length, end, due, err)
			}
		}
	}
}

// What is wrong inside a log isn't taken for its end.
func TestDamagedRecords(t *testing.T) {
	log, ends := recordsOf(t, 10, 20, 30)
	for _, at := range []int{0, 4, 6, bytesOfHeader, ends[0] + 6, ends[1] + bytesOfHeader} {
		damaged := append([]byte(nil), log...)
		damaged[at] ^= 0x40
		if end, err := endOfRecords(damaged); err == nil {
			t.Errorf("with another byte at %d it ends at %d", at, end)
		}
	}
}

// A log or a manifest with a chunk of another kind, or of more bytes than its block has room for, is damaged.
func TestChunksOfNoKind(t *testing.T) {
	log, _ := recordsOf(t, 10)
	for kind := byte(0); kind < 7; kind++ {
		changed := append([]byte(nil), log...)
		changed[6] = kind
		if _, err := endOfRecords(changed); kind != wholeChunk && err == nil {
			t.Errorf("kind %d is read", kind)
		}
	}
	long := append([]byte(nil), log...)
	long[4], long[5] = 0xfa, 0x7f // with the header one byte more than a block
	if end, err := endOfRecords(append(long, make([]byte, 2*bytesOfBlock)...)); err == nil {
		t.Errorf("a chunk that is longer than its block ends at %d", end)
	}
	long[4] = 0xf9 // as long as a block, and cut off
	if end, err := endOfRecords(long); err != nil || end != 0 {
		t.Errorf("%d, %v", end, err)
	}
}
