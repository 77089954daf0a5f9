package gather

import "testing"

// A document with bytes has a file in the blocks of the size for its length: of the first block size with which it has
// fewer than 2000 blocks.
func TestFitsBytes(t *testing.T) {
	const kilo128 = 128 << 10
	cases := []struct {
		why             string
		size, blockSize int64
		fits            bool
	}{
		{"an empty file", 0, kilo128, true},
		{"one block", kilo128, kilo128, true},
		{"one block, whatever its size could be", kilo128, 16 * kilo128, true},
		{"two blocks", kilo128 + 1, kilo128, true},
		{"one block of what are two", kilo128 + 1, 2 * kilo128, false},
		{"the most in the first size", 2000*kilo128 - 1, kilo128, false}, // no document has room for it
		{"in one size for its length", 64 << 20, kilo128, true},
		{"in another one", 64 << 20, 2 * kilo128, false},
		{"too many bytes", 64<<20 + 1, kilo128, false},
	}
	for _, one := range cases {
		if fitsBytes(one.size, one.blockSize) != one.fits {
			t.Errorf("%s: %d bytes in blocks of %d", one.why, one.size, one.blockSize)
		}
	}
}
