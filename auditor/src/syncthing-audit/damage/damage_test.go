package damage

import (
	"bytes"
	"crypto/sha256"
	"math/rand"
	"testing"

	"syncthing-audit/part"
)

const block = 131072

// blocksOf gives the hash of each block of a file.
func blocksOf(data []byte) []part.Hash {
	hashes := []part.Hash{}
	for place := 0; place == 0 || place < len(data); place += block {
		end := place + block
		if end > len(data) {
			end = len(data)
		}
		hashes = append(hashes, sha256.Sum256(data[place:end]))
	}
	return hashes
}

func contentOf(data []byte) part.Content {
	all := sha256.New()
	for _, hash := range blocksOf(data) {
		all.Write(hash[:])
	}
	return part.Content{Size: int64(len(data)), BlockSize: block, Hash: *(*part.Hash)(all.Sum(nil))}
}

// at gives a record of one file and the node of another one, as a part has them.
func at(recorded, found []byte, seconds int64) (*part.Record, *part.Node) {
	content := contentOf(recorded)
	node := &part.Node{Size: int64(len(found)), ModifiedS: seconds, Contents: []part.Content{contentOf(found)}}
	was, is := blocksOf(recorded), blocksOf(found)
	for place := 0; place < len(was) || place < len(is); place++ {
		pair := part.Pair{}
		if place < len(was) {
			pair.Recorded = &was[place]
		}
		if place < len(is) {
			pair.Found = &is[place]
		}
		if pair.Recorded != nil && pair.Found != nil && *pair.Recorded == *pair.Found {
			continue
		}
		if node.Differ == nil {
			node.Differ = &part.Differ{First: pair}
		}
		node.Differ.Count++
		node.Differ.Ranges = append(node.Differ.Ranges, [2]int64{int64(place), int64(place)})
	}
	return &part.Record{Content: &content}, node
}

// kindOf says by the bytes themselves what is to be told.
func kindOf(recorded, found []byte, isAtItsTime bool) Kind {
	isZero := func(data []byte) bool { return len(data) > 0 && len(bytes.Trim(data, "\x00")) == 0 }
	first := func(data []byte) []byte { // of the first block that differs
		for place := 0; place < len(recorded) || place < len(found); place += block {
			if !bytes.Equal(cut(recorded, place), cut(found, place)) {
				return cut(data, place)
			}
		}
		return nil
	}
	isOther := len(first(recorded)) > 0 && len(first(found)) > 0
	switch {
	case len(found) == 0 && len(recorded) > 0:
		return Emptied
	case isOther && isZero(found):
		return Zeros
	case isAtItsTime && isOther && isZero(recorded):
		return OverZeros
	case len(found) < len(recorded) && isAtItsTime:
		return Cut
	case len(found) > len(recorded) && isAtItsTime:
		return Longer
	case isOther && isZero(first(found)):
		return ZeroBlock
	}
	return None
}

func cut(data []byte, place int) []byte {
	end := place + block
	if place > len(data) {
		place = len(data)
	}
	if end > len(data) {
		end = len(data)
	}
	return data[place:end]
}

// random gives a file of up to four blocks, some of them zeros.
func random(from *rand.Rand, like []byte) []byte {
	file := append([]byte{}, like...)
	for change := from.Intn(4); change >= 0; change-- {
		switch from.Intn(5) {
		case 0:
			file = file[:from.Intn(2)*from.Intn(len(file)+1)]
		case 1:
			file = append(file, byte(from.Intn(2)))
		case 2:
			file = make([]byte, len(file))
		case 3:
			zeros := cut(file, block*from.Intn(4))
			copy(zeros, make([]byte, len(zeros)))
		default:
			if len(file) > 0 {
				file[from.Intn(len(file))] = 1
			}
		}
	}
	return file
}

// What is judged from hashes, sizes and times is what the bytes say.
func TestWhatHashesSayIsWhatBytesSay(t *testing.T) {
	seen := map[Kind]int{}
	for seed := int64(1); seed <= 150; seed++ {
		from := rand.New(rand.NewSource(seed))
		recorded := random(from, bytes.Repeat([]byte{7}, from.Intn(3*block)))
		found := random(from, recorded)
		for seconds := int64(0); seconds < 2; seconds++ {
			record, node := at(recorded, found, seconds)
			kind := Of(record, node)
			seen[kind]++
			if told := kindOf(recorded, found, seconds == 0); kind != told {
				t.Errorf("seed %d: %q, not %q, of %d bytes recorded and %d found", seed, kind, told, len(recorded), len(found))
			}
		}
	}
	for _, kind := range append(Kinds, None) {
		if seen[kind] < 3 {
			t.Errorf("%q was seen %d times only", kind, seen[kind])
		}
	}
}

// A part may claim any size: no room and no time goes into zeros that no Syncthing has.
func TestSizesThatNoFileHas(t *testing.T) {
	record, node := at([]byte{1}, []byte{0}, 0)
	record.Content.Size, record.Content.BlockSize = 1<<62, 1<<31-1
	node.Size, node.Contents[0] = 1<<62, *record.Content
	if kind := Of(record, node); kind != None {
		t.Error(kind)
	}
	record.Content.BlockSize, node.Contents[0].BlockSize = 16<<20, 16<<20
	zeros := hashOfZeros(16 << 20)
	node.Differ.First.Found = &zeros
	if kind := Of(record, node); kind != ZeroBlock {
		t.Error(kind)
	}
}
