package rows

import (
	"testing"

	"syncthing-audit/part"
)

// The hashes of a file's blocks are a list, of whatever length.
func TestBlocksAsAList(t *testing.T) {
	const zeros = `"0000000000000000000000000000000000000000000000000000000000000000"`
	one := [32]byte{31: 0x1f}
	for text, hashes := range map[string][][32]byte{
		`,"blocks":[]`: nil, `,"blocks":[` + zeros + `]`: {{}}, `,"blocks":[` + zeros + `,"000000000000000000000000000000000000000000000000000000000000001f",` + zeros + `]`: {{}, one, {}},
	} {
		made := &writer{}
		if made.blocks(hashes); string(made.written) != text {
			t.Errorf("%s, not %s", made.written, text)
		}
	}
}

// A row that takes all the room of a document has one, and a byte less is too little.
func TestARowThatTakesAllRoom(t *testing.T) {
	size := sizeOf(NewDocuments(twoDevices(), false, 1<<20), rowOf("a", 1, 5))
	for room, has := range map[int]bool{size: true, size + 1: true, size - 1: false} {
		filling := NewDocuments(twoDevices(), false, 1<<20)
		filling.room = room
		if full, out := filling.Add(rowOf("a", 1, 5)); full != nil || (out == nil) != has || out != nil && out.Kind != part.Large {
			t.Errorf("%d bytes, %d are needed: %+v", room, size, out)
		}
	}
}
