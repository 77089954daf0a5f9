package rows

import (
	"fmt"
	"math/rand"
	"reflect"
	"testing"

	"syncthing-audit/join"
	"syncthing-audit/part"
)

// sizeOf gives the bytes that a row takes of a document's room; 192 where the members have nothing of it.
func sizeOf(filling *Documents, row *join.Row) int {
	filling.row.take(filling.cut, row)
	return filling.row.size()
}

// The bytes that a row takes are those that a direct reading counts, also where no member records the name.
func TestBytesOfRows(t *testing.T) {
	for seed := int64(1); seed <= 100; seed++ {
		random, withBytes := rand.New(rand.NewSource(seed)), seed%2 == 0
		row := randomDirectRow(random, "n", seed)
		for _, at := range row.At {
			if at != nil && seed%3 == 0 {
				at.Own = nil
			}
		}
		size := sizeOf(NewDocuments(threeDevices(), withBytes, 1<<20), row)
		if due := roomOf(t, threeDevices(), row, withBytes); size != due {
			t.Errorf("seed %d: %d bytes, not %d", seed, size, due)
		}
	}
}

// Rows fill each document to its last byte, the first one and those behind.
func TestDocumentsThatAreFull(t *testing.T) {
	size := sizeOf(NewDocuments(twoDevices(), false, 1<<20), rowOf("a", 1, 5))
	for room, due := range map[int]string{2*size - 1: "[1 1 1 1 1 1]", 2 * size: "[2 2 2]", 2*size + 1: "[2 2 2]", 3 * size: "[3 3]"} {
		filling, counts := NewDocuments(twoDevices(), false, 1<<20), []int{}
		filling.room = room
		for place := 0; place < 6; place++ {
			if full, _ := filling.Add(rowOf(string(rune('a'+place)), int64(place+1), 5)); full != nil {
				counts = append(counts, len(full.Rows))
			}
		}
		if counts = append(counts, len(filling.Take().Rows)); fmt.Sprint(counts) != due {
			t.Errorf("%d bytes of which a row takes %d: %v rows, not %s", room, size, counts, due)
		}
	}
}

// A row that begins the next document, or stream, has its sequence there, and the sequences of the one before are free.
func TestSequencesOfTheNextDocument(t *testing.T) {
	filling := NewDocuments(twoDevices(), false, 1<<20)
	size := sizeOf(filling, rowOf("a", 1, 5))
	filling.room = 2 * size
	stream := NewStream(twoDevices())
	for why, row := range map[string]struct {
		add   func(*join.Row) (*Piece, *part.LeftOut)
		take  func() *Piece
		rowOf func(name string, sequence int64) *join.Row
	}{
		"documents": {filling.Add, filling.Take, func(name string, sequence int64) *join.Row { return rowOf(name, sequence, 5) }},
		"streams":   {stream.Add, stream.Take, func(name string, sequence int64) *join.Row { return rowOfLine(name, sequence, bytesOfStream/2) }},
	} {
		told := []string{}
		for _, next := range []struct {
			name     string
			sequence int64
		}{{"a", 1}, {"b", 2}, {"c", 1}, {"d", 3}, {"e", 3}, {"f", 1}} {
			full, out := row.add(row.rowOf(next.name, next.sequence))
			if full != nil {
				told = append(told, fmt.Sprint("full of ", len(full.Rows)))
			}
			if out != nil {
				told = append(told, "no "+next.name)
			}
		}
		if due := []string{"no c", "full of 2", "no e"}; !reflect.DeepEqual(told, due) || len(row.take().Rows) != 2 {
			t.Errorf("%s: %q, not %q", why, told, due)
		}
	}
}

// Each stream counts the names that nothing holds anew.
func TestUnknownNamesOfEachStream(t *testing.T) {
	stream := NewStream(twoDevices())
	sequence := int64(0)
	for place, due := range []int{2, 0, 1, 0, 3} {
		for number := -1; number < due; number++ { // and one that is known
			sequence++
			row := rowOf(fmt.Sprint(sequence), sequence, 5)
			for _, at := range row.At {
				if number >= 0 {
					at.Own, at.Disk, at.Views[0].Record.Invalid = nil, nil, true
				}
			}
			if full, out := stream.Add(row); full != nil || out != nil {
				t.Fatalf("%+v, %v", full, out)
			}
		}
		if made := stream.Take(); made.Unknown != due || len(made.Rows) != due+1 {
			t.Errorf("stream %d: %d of %d names are unknown, not %d", place, made.Unknown, len(made.Rows), due)
		}
	}
}
