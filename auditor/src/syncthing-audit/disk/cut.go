package disk

import (
	"hash"

	"syncthing-audit/part"
)

// cutter cuts what is written to it into blocks of one size and hashes each.
type cutter struct {
	sum    hash.Hash
	size   int64
	filled int64
	hashes [][32]byte // those of the blocks to come
	ended  int
}

// write takes bytes that end at the end of a block, or before it.
func (c *cutter) write(data []byte) {
	c.sum.Write(data)
	c.filled += int64(len(data))
	if c.filled == c.size {
		c.take()
	}
}

// end ends a last block that isn't full; no bytes at all are one block.
func (c *cutter) end() {
	if c.filled > 0 || c.ended == 0 {
		c.take()
	}
}

func (c *cutter) take() {
	c.sum.Sum(c.hashes[c.ended][:0])
	c.ended++
	c.sum.Reset()
	c.filled = 0
}

// Compare says which blocks differ; nothing if none does.
func Compare(recorded, found [][32]byte) *part.Differ {
	most := len(recorded)
	if len(found) > most {
		most = len(found)
	}
	var differ *part.Differ
	for place := 0; place < most; place++ {
		if place < len(recorded) && place < len(found) && recorded[place] == found[place] {
			continue
		}
		if differ == nil {
			differ = &part.Differ{First: pairAt(recorded, found, place)}
		}
		addRange(differ, int64(place), int64(place))
	}
	return differ
}

// addRange adds blocks, from the first to the last one, to those that differ.
func addRange(to *part.Differ, first, last int64) {
	to.Count += last - first + 1
	end := len(to.Ranges) - 1
	switch {
	case end >= 0 && to.Ranges[end][1] == first-1:
		to.Ranges[end][1] = last
	case len(to.Ranges) < part.MostRanges:
		to.Ranges = append(to.Ranges, [2]int64{first, last})
	}
}

// pairAt gives the hashes of a block that differs.
func pairAt(recorded, found [][32]byte, place int) part.Pair {
	var pair part.Pair
	if place < len(recorded) {
		hash := part.Hash(recorded[place])
		pair.Recorded = &hash
	}
	if place < len(found) {
		hash := part.Hash(found[place])
		pair.Found = &hash
	}
	return pair
}
