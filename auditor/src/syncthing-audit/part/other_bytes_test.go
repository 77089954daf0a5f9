package part

import (
	"bytes"
	"crypto/sha256"
	"math/rand"
	"testing"
)

// cut gives the content of these bytes in blocks of a size.
func cut(data []byte, blockSize int) Content {
	var hashes []byte
	whole := int64(len(data))
	for isFirst := true; isFirst || len(data) > 0; isFirst = false {
		length := len(data)
		if length > blockSize {
			length = blockSize
		}
		sum := sha256.Sum256(data[:length])
		hashes, data = append(hashes, sum[:]...), data[length:]
	}
	return Content{Size: whole, BlockSize: int64(blockSize), Hash: sha256.Sum256(hashes)}
}

// Whether a file has other bytes than recorded is what its bytes say, wherever it was cut as the record was, or neither was cut. Elsewhere it is what the
// part says of blocks.
func TestOtherBytesAreWhatTheBytesSay(t *testing.T) {
	random, seen := rand.New(rand.NewSource(1)), map[[2]bool]int{}
	some := func() []byte { return bytes.Repeat([]byte{byte(random.Intn(2))}, random.Intn(5)) }
	for turn := 0; turn < 5000; turn++ {
		recorded, found, size := some(), some(), 1+random.Intn(5)
		content := cut(recorded, size)
		name := &Name{Own: &Record{Content: &content}, Disk: &Node{}}
		isComparable := false
		for cuts := random.Intn(3); cuts > 0; cuts-- {
			other := 1 + random.Intn(5)
			name.Disk.Contents = append(name.Disk.Contents, cut(found, other))
			isComparable = isComparable || other == size || len(recorded) <= size && len(found) <= other
		}
		if random.Intn(2) == 0 {
			name.Disk.Differ = &Differ{}
		}
		is := name.Disk.Differ != nil
		if isComparable {
			is = !bytes.Equal(recorded, found)
		}
		if name.HasOtherBytes() != is {
			t.Fatalf("%v in blocks of %d, and %v on the disk: %+v", recorded, size, found, name.Disk)
		}
		seen[[2]bool{isComparable, is}]++
	}
	for _, kind := range [][2]bool{{false, false}, {false, true}, {true, false}, {true, true}} {
		if seen[kind] < 200 {
			t.Errorf("%v came only %d times", kind, seen[kind])
		}
	}
	differs := &Node{Differ: &Differ{}}
	for _, none := range []*Name{{}, {Disk: differs}, {Own: &Record{}, Disk: differs}, {Own: &Record{Content: &Content{BlockSize: 1}}}} {
		if none.HasOtherBytes() {
			t.Errorf("%+v has other bytes than recorded", none)
		}
	}
}
