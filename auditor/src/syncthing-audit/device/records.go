package device

import (
	"encoding/binary"
	"errors"

	"github.com/syndtr/goleveldb/leveldb/util"
)

// How LevelDB writes logs and manifests: blocks with chunks of records, each behind a header of its checksum, length and kind.
const (
	bytesOfBlock  = 32 << 10
	bytesOfHeader = 7
	wholeChunk    = 1
	lastChunk     = 4
)

// errDamaged says that a log or a manifest isn't what LevelDB writes.
var errDamaged = errors.New("it is damaged")

// endOfRecords gives where the last whole record of a log or a manifest ends. What stands behind it may be the beginning of
// a record that was being written while the file was read.
func endOfRecords(data []byte) (int, error) {
	end := 0
	for at := 0; ; {
		room := bytesOfBlock - at%bytesOfBlock
		if room < bytesOfHeader {
			at += room
			continue
		}
		if len(data)-at < bytesOfHeader {
			return end, nil
		}
		next := at + bytesOfHeader + int(binary.LittleEndian.Uint16(data[at+4:]))
		kind := data[at+6]
		if kind < wholeChunk || kind > lastChunk || next-at > room {
			return 0, errDamaged
		}
		if next > len(data) {
			return end, nil
		}
		if binary.LittleEndian.Uint32(data[at:]) != util.NewCRC(data[at+bytesOfHeader-1:next]).Value() {
			return 0, errDamaged
		}
		if at = next; kind == wholeChunk || kind == lastChunk {
			end = at
		}
	}
}
