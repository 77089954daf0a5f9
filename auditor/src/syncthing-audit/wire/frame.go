package wire

import (
	"encoding/binary"
	"fmt"
	"io"

	"github.com/pierrec/lz4"
	"google.golang.org/protobuf/encoding/protowire"
	"syncthing-audit/message"
)

// kind is what a message is (BEP, 'MessageType').
type kind uint64

const (
	kindClusterConfig kind = 0
	kindIndex         kind = 1
	kindIndexUpdate   kind = 2
	kindRequest       kind = 3
	kindResponse      kind = 4
	kindPing          kind = 6
	kindClose         kind = 7
)

// The numbers of a Header's fields, and what compresses a message.
const (
	headerType        protowire.Number = 1
	headerCompression protowire.Number = 2

	compressionNone = 0
	compressionLZ4  = 1
)

// longestHeader is more than any header has.
const longestHeader = 1024

// readFrame reads a message: the length of its header, the header, the message's length, the message. It calls begun behind the first bytes.
func readFrame(from io.Reader, most int, begun func()) (what kind, text []byte, err error) {
	var length [2]byte
	if _, err := io.ReadFull(from, length[:]); err != nil {
		return what, nil, err
	}
	begun()
	of := int(binary.BigEndian.Uint16(length[:]))
	if of > longestHeader {
		return what, nil, fmt.Errorf("%w: a header of %d bytes", TooLong, of)
	}
	header := make([]byte, of)
	if _, err := io.ReadFull(from, header); err != nil {
		return what, nil, err
	}
	var compression uint64
	err = message.Each(header, func(field message.Field) error {
		switch field.Number {
		case headerType:
			what = kind(field.Value)
		case headerCompression:
			compression = field.Value
		}
		return nil
	})
	if err != nil {
		return what, nil, fmt.Errorf("%w: its header: %v", BadMessage, err)
	}
	text, err = readBody(from, most, compression)
	return what, text, err
}

// readBody reads a message behind its header, and decompresses it.
func readBody(from io.Reader, most int, compression uint64) ([]byte, error) {
	var length [4]byte
	if _, err := io.ReadFull(from, length[:]); err != nil {
		return nil, err
	}
	of := uint64(binary.BigEndian.Uint32(length[:]))
	if of > uint64(most) {
		return nil, fmt.Errorf("%w: %d bytes, where at most %d are taken", TooLong, of, most)
	}
	body := make([]byte, of)
	if _, err := io.ReadFull(from, body); err != nil {
		return nil, err
	}
	switch compression {
	case compressionNone:
		return body, nil
	case compressionLZ4:
		return decompress(body, most)
	}
	return nil, fmt.Errorf("%w: it is compressed in a way that isn't known here (%d)", BadMessage, compression)
}

// decompress decompresses a message: its length, then a block of LZ4.
func decompress(body []byte, most int) ([]byte, error) {
	if len(body) < 4 {
		return nil, fmt.Errorf("%w: it is compressed, and has no length", BadMessage)
	}
	of := uint64(binary.BigEndian.Uint32(body))
	if of > uint64(most) {
		return nil, fmt.Errorf("%w: %d bytes once it is decompressed, where at most %d are taken", TooLong, of, most)
	}
	text := make([]byte, of)
	length, err := lz4.UncompressBlock(body[4:], text)
	if err != nil || length != len(text) {
		return nil, fmt.Errorf("%w: it can't be decompressed (%d bytes of %d, %v)", BadMessage, length, of, err)
	}
	return text, nil
}

// frameOf gives a message as it is sent, uncompressed.
func frameOf(what kind, body []byte) []byte {
	header := message.AppendNumber(nil, headerType, uint64(what))
	frame := binary.BigEndian.AppendUint16(nil, uint16(len(header)))
	frame = append(frame, header...)
	frame = binary.BigEndian.AppendUint32(frame, uint32(len(body)))
	return append(frame, body...)
}
