package part

import (
	"bufio"
	"compress/gzip"
	"errors"
	"fmt"
	"io"
)

// mostLineBytes is how long a line of a part may be: a name with the records of fifteen views takes far less.
const mostLineBytes = 1 << 20

// mostHeadBytes is how long a head may be: it has all folders, with all devices of each.
const mostHeadBytes = 16 << 20

// Reader reads a part in either encoding, and refuses what is none.
type Reader struct {
	text  encoded
	head  Head
	rules rules
	count int
}

// encoded is what a part has, in an encoding.
type encoded interface {
	readHead(into *Head) error
	readLine() (Line, error) // io.EOF behind the last
	length() int             // of the last line
	why(err error) error     // in place of an error, once there is one
}

// ErrNone says that something is no part.
var ErrNone = errors.New("this is no part")

// notPart is an error that says why something is no part.
type notPart struct{ error }

func (n notPart) Is(target error) bool { return target == ErrNone }
func (n notPart) Unwrap() error        { return n.error }

func noPart(why error) error { return notPart{fmt.Errorf("%v: %w", ErrNone, why)} }

// NewReader reads a part's head.
func NewReader(from io.Reader) (*Reader, error) {
	unzipped, err := gzip.NewReader(bufio.NewReaderSize(from, 1<<16))
	if err != nil {
		return nil, noPart(err)
	}
	reader := &Reader{count: 1}
	if reader.text, err = textIn(bufio.NewReaderSize(unzipped, 1<<16)); err != nil {
		return nil, orNoPart(err)
	}
	if err := reader.text.readHead(&reader.head); err != nil {
		return nil, orNoPart(reader.text.why(err))
	}
	if err := checkHead(&reader.head); err != nil {
		return nil, reader.text.why(err)
	}
	reader.rules.head = &reader.head
	return reader, nil
}

// orNoPart gives why a head can't be read: it is that of no part, unless it is that of a damaged one.
func orNoPart(why error) error {
	if errors.Is(why, errDamaged) || errors.Is(why, errMiddle) {
		return why
	}
	return noPart(why)
}

// textIn finds which encoding a part has. In JSON a head begins with a brace.
func textIn(from *bufio.Reader) (encoded, error) {
	begin, err := from.Peek(1)
	switch {
	case err == io.EOF:
		return nil, errors.New("it is empty")
	case err != nil:
		return nil, whyUnread(err)
	case begin[0] == '{':
		return &lines{from: from}, nil
	}
	return newPacked(from)
}

// Head gives the part's head.
func (r *Reader) Head() *Head { return &r.head }

// Next gives the next line; io.EOF behind the last.
func (r *Reader) Next() (Line, error) {
	line, err := r.text.readLine()
	if err == io.EOF {
		return Line{}, r.rules.end()
	}
	r.count++
	if err == nil && line.Name != nil {
		err = lengthen(line.Name)
	}
	if err == nil {
		err = r.rules.take(line)
	}
	if err != nil {
		return Line{}, fmt.Errorf("line %d of the part: %w", r.count, r.text.why(err))
	}
	return line, nil
}
