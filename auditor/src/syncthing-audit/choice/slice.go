package choice

import (
	"crypto/sha256"
	"encoding/binary"
	"errors"
	"fmt"
	"regexp"
	"strconv"
)

// MostSlices is how many slices there may be: one for each day of a year.
const MostSlices = 366

// sliceOf gives the slice of a name, from 1: the first 8 bytes of the SHA-256 of the folder's id, a zero byte and the name, as a number
// whose first byte is its highest, modulo the count of slices, and 1. Parts of all devices and versions are to go together, and who goes
// round the slices is to miss no name, so this stays as it is for ever.
func sliceOf(folder, name string, slices int) int {
	sum := sha256.Sum256([]byte(folder + "\x00" + name))
	return int(binary.BigEndian.Uint64(sum[:8])%uint64(slices)) + 1
}

// slice gives the word behind --slice.
func (n Names) slice() string { return fmt.Sprintf("%d/%d", n.Slice, n.Slices) }

// Check says why a part's names are none.
func (n Names) Check() error {
	if (n.Slice != 0 || n.Slices != 0) && (n.Slices < 2 || n.Slices > MostSlices || n.Slice < 1 || n.Slice > n.Slices) {
		return fmt.Errorf("it says that it has slice %d of %d", n.Slice, n.Slices)
	}
	return nil
}

// SliceFlag is the flag --slice K/N, which sets the slice of these names.
type SliceFlag struct{ *Names }

func (f SliceFlag) String() string { return "" }

var sliceWord = regexp.MustCompile(`^([1-9][0-9]{0,2})/([1-9][0-9]{0,2})$`)

// Set reads K/N. The one slice of one has all names, as where the flag isn't given.
func (f SliceFlag) Set(value string) error {
	words := sliceWord.FindStringSubmatch(value)
	if words == nil {
		return fmt.Errorf("a slice is K/N, as 3/7: slice 3 of 7, of 1 to %d", MostSlices)
	}
	slice, _ := strconv.Atoi(words[1])
	slices, _ := strconv.Atoi(words[2])
	switch {
	case slices > MostSlices:
		return fmt.Errorf("there may be %d slices at most", MostSlices)
	case slice > slices:
		return fmt.Errorf("there is no slice %d of %d", slice, slices)
	case f.IsOfSlice():
		return errors.New("it is given twice, and an audit is of one slice")
	case slices > 1:
		f.Slice, f.Slices = slice, slices
	}
	return nil
}
