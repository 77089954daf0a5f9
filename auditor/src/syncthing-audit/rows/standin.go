package rows

import (
	"crypto/sha256"
	"strconv"

	"syncthing-audit/part"
)

// appendStandIn appends the text that stands in a row for a file's bytes. It has under 128 bytes. Two are equal exactly where the contents
// are the same, unless SHA-256 collides.
func appendStandIn(to []byte, content *part.Content) []byte {
	to = append(strconv.AppendInt(to, content.Size, 10), " bytes in "...)
	if part.CountOfBlocks(content.Size, content.BlockSize) == 1 {
		to = append(to, "one block: "...)
	} else {
		to = append(strconv.AppendInt(append(to, "blocks of "...), content.BlockSize, 10), ": "...)
	}
	return appendHex(to, content.Hash[:])
}

// appendHex appends bytes as hexadecimal digits.
func appendHex(to, data []byte) []byte {
	const digits = "0123456789abcdef"
	for _, one := range data {
		to = append(to, digits[one>>4], digits[one&15])
	}
	return to
}

// standIn is a stand-in with the hash of its one block.
type standIn struct {
	text  []byte
	block [1][32]byte
}

// take takes the stand-in of another content.
func (s *standIn) take(content *part.Content) {
	s.text = appendStandIn(s.text[:0], content)
	s.block[0] = sha256.Sum256(s.text)
}

// contentOnDisk gives the content of a file on the disk. A file may be cut in several ways. Then it has the content of
// the device's own record, if one of the ways gives that, or else of another device's record.
func contentOnDisk(row []*part.Name, at int) *part.Content {
	contents := row[at].Disk.Contents
	own := row[at].Own
	if own != nil && isContent(own, &contents[0]) {
		return &contents[0]
	}
	for place := range contents {
		for _, name := range row {
			if name != nil && name.Own != nil && !name.Own.Invalid && isContent(name.Own, &contents[place]) {
				return &contents[place]
			}
		}
	}
	return &contents[0]
}

// isContent says whether a record has this content.
func isContent(record *part.Record, content *part.Content) bool {
	return record.Content != nil && record.Content.IsSame(content)
}
