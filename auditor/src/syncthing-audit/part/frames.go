package part

import (
	"crypto/sha256"
	"encoding/binary"
	"errors"
	"fmt"
	"hash"
	"io"
)

// Kinds of frames. A frame is its kind as one byte, its length as a varint, and so many bytes.
const (
	frameOfHead    = 'H' // JSON
	frameOfBegin   = 'B' // JSON
	frameOfName    = 'N' // a message: fields.go
	frameOfEnd     = 'E' // JSON
	frameOfTrailer = 'T' // a message: the last frame
)

// begin is what a packed part begins with, and the number of its encoding and a newline behind that. Lines of JSON are encoding 1.
const (
	begin    = "syncthing-audit part, encoding "
	encoding = 2
)

// bytesOfBuffer is how much of a part is read at once; bytesOfMark is how long a frame's kind and length are at most.
const (
	bytesOfBuffer = 1 << 16
	bytesOfMark   = 1 + binary.MaxVarintLen64
)

// errMiddle says that a part ends in the middle.
var errMiddle = errors.New("the part ends in the middle: it was cut off")

// unreadable is why a part's bytes can't be had.
type unreadable struct{ error }

func (u unreadable) Unwrap() error { return u.error }

// mostEmptyReads is how often a reader may give nothing and no error.
const mostEmptyReads = 100

// frames reads frames one by one, and sums up all bytes that were taken.
type frames struct {
	from       io.Reader
	buffer     []byte
	start, end int // of what was read and isn't taken
	summed     int // up to here the buffer's bytes are in the sum
	sum        hash.Hash
}

func newFrames(from io.Reader) *frames {
	return &frames{from: from, buffer: make([]byte, bytesOfBuffer), sum: sha256.New()}
}

// want reads on until so many bytes are there, and gives those that are: fewer before the end alone.
func (f *frames) want(count int) ([]byte, error) {
	for empty := 0; f.end-f.start < count; {
		if f.start+count > len(f.buffer) {
			f.makeRoom(count)
		}
		read, err := f.from.Read(f.buffer[f.end:])
		f.end += read
		if err == io.EOF {
			break
		}
		if empty++; read > 0 {
			empty = 0
		}
		if err == nil && empty > mostEmptyReads {
			err = io.ErrNoProgress
		}
		if err != nil {
			return nil, unreadable{err}
		}
	}
	return f.buffer[f.start:f.end], nil
}

// makeRoom puts what isn't taken at the buffer's begin. For what doesn't fit in the buffer grows as bytes come, whatever length is told.
func (f *frames) makeRoom(count int) {
	f.settle()
	copy(f.buffer, f.buffer[f.start:f.end])
	f.end -= f.start
	f.start, f.summed = 0, 0
	if f.end == len(f.buffer) && count > f.end {
		f.buffer = append(f.buffer, make([]byte, f.end)...)
	}
}

// settle sums up what was taken.
func (f *frames) settle() {
	f.sum.Write(f.buffer[f.summed:f.start])
	f.summed = f.start
}

// take takes bytes that are there.
func (f *frames) take(count int) []byte {
	taken := f.buffer[f.start : f.start+count]
	f.start += count
	return taken
}

// next takes the next frame, unless it has more bytes than it may. Its bytes stay until another one is taken. errMiddle comes where none is whole.
func (f *frames) next(most int) (kind byte, text []byte, err error) {
	there, err := f.want(bytesOfMark)
	switch {
	case err != nil:
		return kind, nil, err
	case len(there) == 0:
		return kind, nil, errMiddle
	}
	kind = there[0]
	length, digits := binary.Uvarint(there[1:])
	switch {
	case digits < 0:
		return kind, nil, errors.New("its length is none")
	case digits == 0:
		return kind, nil, errMiddle
	case length > uint64(most):
		return kind, nil, fmt.Errorf("it has over %d bytes", most)
	}
	whole := 1 + digits + int(length)
	if there, err = f.want(whole); err != nil {
		return kind, nil, err
	}
	if len(there) < whole {
		return kind, nil, errMiddle
	}
	return kind, f.take(whole)[1+digits:], nil
}

// sumOfTaken gives the SHA-256 of all that was taken.
func (f *frames) sumOfTaken() (sum Hash) {
	f.settle()
	f.sum.Sum(sum[:0])
	return sum
}

// isSumNext says whether nothing is left but the SHA-256 of all that was taken.
func (f *frames) isSumNext() (bool, error) {
	there, err := f.want(len(Hash{}) + 1)
	if err != nil {
		return false, err
	}
	sum := f.sumOfTaken()
	return string(there) == string(sum[:]), nil
}

// isAsWritten takes the rest up to the last bytes, and says whether these are the sum of all that was taken. Where the rest is very long it isn't read.
func (f *frames) isAsWritten() (bool, error) {
	for taken := 0; taken < mostOfRest; {
		there, err := f.want(bytesOfBuffer)
		if err != nil || len(there) < len(Hash{}) {
			return false, err
		}
		taken += len(f.take(len(there) - len(Hash{})))
		if len(there) < bytesOfBuffer {
			return f.isSumNext()
		}
	}
	return true, nil
}

// mostOfRest is how much of a part is read behind a fault, to see whether it is one of what was written or of its way here.
const mostOfRest = 1 << 28
