package history

import (
	"encoding/binary"
	"errors"
	"time"

	"syncthing-audit/part"
)

// Reading is what was read of a file, and when.
type Reading struct {
	At         time.Time // in whole seconds
	ModifiedS  int64
	ModifiedNs int
	Content    part.Content
}

// readingOf gives what a part has read of a name: nothing where nothing stands there, or not all bytes were read.
func readingOf(line *part.Name, at time.Time) *Reading {
	node := line.Disk
	if node == nil || len(node.Contents) == 0 || node.Lost != "" || node.Unread > 0 || !line.IsToldHere() || len(line.Moved) > 0 {
		return nil
	}
	return &Reading{at.UTC().Truncate(time.Second), node.ModifiedS, node.ModifiedNs, node.Contents[0]}
}

// isOtherBytesOf says whether a file has other bytes than before, under the same time and size. Whether that is so isn't known where the two readings
// cut it into blocks of different sizes.
func (r *Reading) isOtherBytesOf(before *Reading) bool {
	return r.hasTimeOf(before) && r.Content.BlockSize == before.Content.BlockSize && r.Content.Hash != before.Content.Hash
}

func (r *Reading) hasTimeOf(other *Reading) bool {
	return r.ModifiedS == other.ModifiedS && r.ModifiedNs == other.ModifiedNs && r.Content.Size == other.Content.Size
}

// lengthOfReading is that of a reading's bytes: five numbers and a hash.
const lengthOfReading = 5*8 + 32

var errValue = errors.New("a value isn't one of this format")

func (r *Reading) bytes() []byte {
	text := make([]byte, 0, lengthOfReading)
	for _, number := range []int64{r.At.Unix(), r.ModifiedS, int64(r.ModifiedNs), r.Content.Size, r.Content.BlockSize} {
		text = binary.BigEndian.AppendUint64(text, uint64(number))
	}
	return append(text, r.Content.Hash[:]...)
}

func readReading(value []byte) (*Reading, error) {
	if len(value) != lengthOfReading {
		return nil, errValue
	}
	reading := readingIn(value)
	return &reading, nil
}

// readingIn gives the reading of a value that is as long as one.
func readingIn(value []byte) Reading {
	number := func(place int) int64 { return int64(binary.BigEndian.Uint64(value[8*place:])) }
	reading := Reading{At: time.Unix(number(0), 0).UTC(), ModifiedS: number(1), ModifiedNs: int(number(2))}
	reading.Content = part.Content{Size: number(3), BlockSize: number(4)}
	copy(reading.Content.Hash[:], value[5*8:])
	return reading
}
