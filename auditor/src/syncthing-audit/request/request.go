// Package request makes what the observer asks devices for. Nothing outside this package makes a request otherwise, or gives it a hash.
package request

import (
	"crypto/rand"

	"google.golang.org/protobuf/encoding/protowire"
	"syncthing-audit/message"
)

// Request asks a device for bytes of a file. It has no place for a recorded hash: a device that is asked with one and has other bytes takes
// them for a change, records them, and sends them to all. A request for a block has no hash. One for a length has a hash drawn at random,
// which is never a recorded one. Only these two functions make requests.
type Request struct {
	name   string
	offset int64
	size   int32
	drawn  *[32]byte // at random; nothing for a block
}

// ForBlock asks for the bytes of a block. A device that has fewer bytes there fills up with others, so an answer says nothing without the
// file's length.
func ForBlock(name string, offset int64, size int32) Request {
	return Request{name: name, offset: offset, size: size}
}

// ForLength asks whether a file has at most so many bytes: for one byte behind them, by the weak hash of no bytes. A device answers with the
// byte if it finds none there. If it finds one, neither the weak hash nor the hash is right. It then looks whether the hash is the recorded
// one, which one drawn at random isn't, and does nothing.
func ForLength(name string, length int64) (Request, error) {
	request := Request{name: name, offset: length, size: 1, drawn: new([32]byte)}
	_, err := rand.Read(request.drawn[:])
	return request, err
}

// weakHashOfNothing is the Adler-32 of no bytes, which no single byte has.
const weakHashOfNothing = 1

// The numbers of a Request's fields (BEP, 'Fields (Request)').
const (
	FieldOfID       protowire.Number = 1
	FieldOfFolder   protowire.Number = 2
	FieldOfName     protowire.Number = 3
	FieldOfOffset   protowire.Number = 4
	FieldOfSize     protowire.Number = 5
	FieldOfHash     protowire.Number = 6
	FieldOfWeakHash protowire.Number = 8
)

// Size gives how many bytes are asked for.
func (r Request) Size() int32 { return r.size }

// Message gives the request as it is sent. It never asks for a temporary file.
func (r Request) Message(id int32, folder string) []byte {
	text := message.AppendNumber(nil, FieldOfID, uint64(id))
	text = message.AppendText(text, FieldOfFolder, []byte(folder))
	text = message.AppendText(text, FieldOfName, []byte(r.name))
	text = message.AppendNumber(text, FieldOfOffset, uint64(r.offset))
	text = message.AppendNumber(text, FieldOfSize, uint64(r.size))
	if r.drawn != nil {
		text = message.AppendText(text, FieldOfHash, r.drawn[:])
		text = message.AppendNumber(text, FieldOfWeakHash, weakHashOfNothing)
	}
	return text
}
