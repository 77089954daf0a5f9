package part

import "testing"

// One block is the same in each block size; of more, and of other bytes, none is the same as one that is cut otherwise.
func TestContentsOfTheSameBytes(t *testing.T) {
	small, large := Content{Size: 131072, BlockSize: 131072, Hash: Hash{1}}, Content{Size: 131073, BlockSize: 131072, Hash: Hash{1}}
	for _, row := range []struct {
		of     Content
		change func(*Content)
		is     bool
	}{
		{small, func(*Content) {}, true}, {large, func(*Content) {}, true}, {small, func(c *Content) { c.BlockSize *= 2 }, true},
		{large, func(c *Content) { c.BlockSize *= 2 }, false}, {small, func(c *Content) { c.Size-- }, false}, {large, func(c *Content) { c.Hash[0]++ }, false},
	} {
		other := row.of
		row.change(&other)
		if row.of.IsSame(&other) != row.is || other.IsSame(&row.of) != row.is {
			t.Errorf("%+v, %+v: expected %v", row.of, other, row.is)
		}
	}
}
