package disk

import (
	"crypto/sha256"

	"syncthing-audit/part"
)

// MostBeyond is how much longer than the longest record of it a file may be and be hashed to its end. Its size decides already that it isn't what
// any record says. Its other bytes only tell which devices have the same ones, and a sparse file may have any number of them.
const MostBeyond = 4 << 30

// Length gives how many bytes of a file are hashed: all, or as many as the longest record has, up to the end of a piece.
func (f *File) Length() int64 {
	if f.Node.Size-f.Longest <= MostBeyond {
		return f.Node.Size
	}
	return (f.Longest/pieceBytes + 1) * pieceBytes
}

// isCut says whether a file isn't hashed to its end.
func (f *File) isCut() bool { return f.Length() < f.Node.Size }

// cutContents gives contents that no other file has, for one that isn't hashed to its end: nobody knows which files have its bytes.
func (f *File) cutContents() []part.Content {
	contents := []part.Content{}
	for _, size := range f.BlockSizes {
		contents = append(contents, part.Content{Size: f.Node.Size, BlockSize: size, Hash: sha256.Sum256([]byte("not read to its end\x00" + f.Stamp.String() + "\x00" + f.path()))})
	}
	return contents
}

// CompareBegin compares the begin of a file that isn't hashed to its end, and that has so many blocks: all behind the begin differ, since the record
// has none there.
func CompareBegin(recorded, found [][32]byte, blocks int64) *part.Differ {
	differ := Compare(recorded, found)
	if differ == nil {
		differ = &part.Differ{} // nobody has a hash of the first block that differs
	}
	addRange(differ, int64(len(found)), blocks-1)
	return differ
}
