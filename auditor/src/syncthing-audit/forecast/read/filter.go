package read

import (
	"encoding/binary"
	"encoding/hex"

	"syncthing-audit/forecast"
	"syncthing-audit/part"
)

const (
	mostExact    = 10000   // of so many contents the filter knows exactly which it has
	bitsOfFilter = 1 << 25 // a power of two: a million contents take up a tenth of these bits
)

// key is the beginning of a content's hash.
type key [16]byte

// filter is a set of hashes in little room, as of files' bytes. Once it has many, it may say of some that it has them, though it hasn't.
type filter struct {
	exact map[key]bool
	bits  []uint64
}

func (f *filter) add(content *part.Content) {
	var begins key
	copy(begins[:], content.Hash[:])
	f.addKey(begins)
}

func (f *filter) addKey(begins key) {
	if f.exact == nil {
		f.exact = map[key]bool{}
	}
	if f.bits == nil && len(f.exact) < mostExact {
		f.exact[begins] = true
		return
	}
	if f.bits == nil {
		f.bits = make([]uint64, bitsOfFilter/64)
	}
	begins.each(func(word, bit uint64) bool {
		f.bits[word] |= bit
		return true
	})
}

func (f *filter) has(content forecast.Content) bool {
	hash, err := hex.DecodeString(content.Hash)
	if err != nil {
		return false
	}
	var begins key
	copy(begins[:], hash)
	return f.hasKey(begins)
}

func (f *filter) hasKey(begins key) bool {
	return f.exact[begins] || f.bits != nil && begins.each(func(word, bit uint64) bool { return f.bits[word]&bit != 0 })
}

// each calls for the places of a content, and says whether all calls were true.
func (k key) each(call func(word, bit uint64) bool) bool {
	for at := 0; at < len(k); at += 4 {
		place := uint64(binary.LittleEndian.Uint32(k[at:])) % bitsOfFilter
		if !call(place/64, 1<<(place%64)) {
			return false
		}
	}
	return true
}
