package disk

import (
	"math/rand"
	"reflect"
	"testing"

	"syncthing-audit/part"
)

// plainlyDiffering says block by block which of a file with so many blocks differ from a record, of which only these were found.
func plainlyDiffering(recorded, found [][32]byte, blocks int) *part.Differ {
	at := func(of [][32]byte, place int) *part.Hash {
		if place >= len(of) {
			return nil
		}
		made := part.Hash(of[place])
		return &made
	}
	made, ranges := &part.Differ{}, [][2]int64(nil)
	for place := 0; place < len(recorded) || place < blocks; place++ {
		one, other := at(recorded, place), at(found, place)
		if one != nil && other != nil && *one == *other {
			continue
		}
		if made.Count++; made.Count == 1 {
			made.First = part.Pair{Recorded: one, Found: other}
		}
		if last := len(ranges) - 1; last >= 0 && ranges[last][1] == int64(place)-1 {
			ranges[last][1]++
		} else {
			ranges = append(ranges, [2]int64{int64(place), int64(place)})
		}
	}
	if made.Count == 0 {
		return nil
	}
	if made.Ranges = ranges; len(ranges) > part.MostRanges {
		made.Ranges = ranges[:part.MostRanges]
	}
	return made
}

// Which blocks differ is what a plain reading says, block by block, of any record and any file, also of one that isn't hashed to its end.
func TestBlocksThatDifferAreThoseOfAPlainReading(t *testing.T) {
	random, cut := rand.New(rand.NewSource(1)), 0
	for turn := 0; turn < 3000; turn++ {
		kinds := 1 + random.Intn(20)
		some := func(length int) [][32]byte {
			made := make([][32]byte, length)
			for place := range made {
				made[place][0] = byte(random.Intn(kinds) / (kinds - kinds/3))
			}
			return made
		}
		most := []int{2, 10, 400}[random.Intn(3)]
		recorded, found := some(random.Intn(most)), some(random.Intn(most))
		if made, plain := Compare(recorded, found), plainlyDiffering(recorded, found, len(found)); !reflect.DeepEqual(made, plain) {
			t.Fatalf("%v, %v: %+v, not %+v", recorded, found, made, plain)
		}
		if len(recorded) > len(found) {
			continue
		}
		cut++
		blocks := len(found) + 1 + random.Intn(3)
		if made, plain := CompareBegin(recorded, found, int64(blocks)), plainlyDiffering(recorded, found, blocks); !reflect.DeepEqual(made, plain) {
			t.Fatalf("%v, %v of %d: %+v, not %+v", recorded, found, blocks, made, plain)
		}
	}
	if cut < 1000 {
		t.Errorf("only %d files were longer", cut)
	}
}
