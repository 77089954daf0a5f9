package read

import (
	"encoding/binary"
	"testing"

	"syncthing-audit/forecast"
	"syncthing-audit/join"
	"syncthing-audit/part"
)

// A filter has what was added, and little else.
func TestFilter(t *testing.T) {
	rows := NewRows(folderOf(2))
	rows.Take(calm("a", nil))
	rows.Take(calm("empty", func(row *join.Row) {
		for _, at := range row.At {
			at.Own.Content.Size, at.Views[0].Record.Content.Size, at.Disk.Size, at.Disk.Contents[0].Size = 0, 0, 0, 0
			at.Own.Content.Hash[0], at.Views[0].Record.Content.Hash[0], at.Disk.Contents[0].Hash[0] = 3, 3, 3
		}
	}))
	for _, due := range []struct {
		hash byte
		has  bool
	}{{1, true}, {2, false}, {3, false}} {
		other := NewRows(folderOf(2))
		other.Take(calm("b", func(row *join.Row) {
			for _, at := range row.At {
				at.Own.Content.Hash[0], at.Views[0].Record.Content.Hash[0], at.Disk.Contents[0].Hash[0] = due.hash, due.hash, due.hash
			}
			row.At[1].Disk = nil
		}))
		if rows.HasTwin(other.World().Names) != due.has {
			t.Errorf("hash %d: %v", due.hash, !due.has)
		}
	}
}

// A filter has all that was added, however much it is, and hardly anything else.
func TestFilterOfMany(t *testing.T) {
	var many filter
	content := func(number int) part.Content {
		content := part.Content{Size: 1}
		binary.LittleEndian.PutUint64(content.Hash[:], uint64(number)*0x9e3779b97f4a7c15)
		binary.LittleEndian.PutUint64(content.Hash[8:], uint64(number)*0xc2b2ae3d27d4eb4f)
		return content
	}
	for number := 0; number < 3*mostExact; number++ {
		added := content(number)
		if many.add(&added); (many.bits != nil) != (number >= mostExact) {
			t.Fatalf("%d contents have bits: %v", number+1, many.bits != nil)
		}
	}
	wrong := 0
	for number := 0; number < 6*mostExact; number++ {
		has := many.has(forecast.Content{Size: 1, Hash: content(number).Hash.String()})
		if number < 3*mostExact && !has {
			t.Fatal("the filter lacks what was added:", number)
		}
		if number >= 3*mostExact && has {
			wrong++
		}
	}
	if wrong > 30 {
		t.Errorf("%d are said to be there, and aren't", wrong)
	}
	if len(many.exact) != mostExact || len(many.bits) != bitsOfFilter/64 {
		t.Errorf("%d are known exactly, with %d words of bits", len(many.exact), len(many.bits))
	}
	if many.has(forecast.Content{Size: 1, Hash: "no hash"}) {
		t.Error("it has what is no hash")
	}
}
