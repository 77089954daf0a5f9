package part

import (
	"compress/flate"
	"compress/gzip"
	"encoding/json"
	"errors"
	"fmt"
	"io"
	"strconv"

	"google.golang.org/protobuf/encoding/protowire"
	"syncthing-audit/message"
)

// The fields of a trailer.
const (
	trailerFolders protowire.Number = 1
	trailerNames   protowire.Number = 2
)

// errDamaged says that a part isn't what was written.
var errDamaged = errors.New("the part is damaged: what stands in it isn't what was written. Have it made or sent anew")

// packed reads a part of encoding 2: the begin, frames, and the SHA-256 of all these.
type packed struct {
	*frames
	folders, names uint64
	last           int
	unpacker       unpacker
}

// newPacked reads a part's begin.
func newPacked(from io.Reader) (*packed, error) {
	read := &packed{frames: newFrames(from)}
	due := begin + strconv.Itoa(encoding) + "\n"
	there, err := read.want(len(due))
	switch {
	case err != nil:
		return nil, read.why(err)
	case len(there) < len(due) || string(there[:len(begin)]) != begin:
		return nil, errors.New("it doesn't begin as one")
	case string(there[:len(due)]) != due:
		return nil, fmt.Errorf("it has another encoding; this program reads encodings 1 and %d", encoding)
	}
	read.take(len(due))
	return read, nil
}

// readHead reads the head.
func (p *packed) readHead(into *Head) error {
	kind, text, err := p.next(mostHeadBytes)
	if err == nil && kind != frameOfHead {
		err = errors.New("it doesn't begin with a head")
	}
	if err == nil {
		err = json.Unmarshal(text, into)
	}
	return err
}

// readLine reads the next line; io.EOF behind the last.
func (p *packed) readLine() (line Line, err error) {
	kind, text, err := p.next(mostLineBytes)
	if err != nil {
		return Line{}, err
	}
	p.last = len(text)
	switch kind {
	case frameOfName:
		p.names++
		line.Name, err = p.unpacker.name(text)
	case frameOfBegin:
		p.folders++
		line.Begin = &Begin{}
		err = json.Unmarshal(text, line.Begin)
	case frameOfEnd:
		line.End = &End{}
		err = json.Unmarshal(text, line.End)
	case frameOfTrailer:
		err = p.end(text)
	default:
		err = fmt.Errorf("it is of the kind %q", kind)
	}
	return line, err
}

// end says what is wrong with a trailer and with what follows it; io.EOF where nothing is.
func (p *packed) end(text []byte) error {
	folders, names := uint64(0), uint64(0)
	err := message.Each(text, func(field message.Field) error {
		switch field.Number {
		case trailerFolders:
			folders = field.Value
		case trailerNames:
			names = field.Value
		}
		return nil
	})
	if err != nil || folders != p.folders || names != p.names {
		return errDamaged
	}
	if is, err := p.isSumNext(); !is {
		return orDamaged(err)
	}
	return io.EOF
}

func orDamaged(err error) error {
	if err == nil {
		return errDamaged
	}
	return err
}

// length gives how many bytes the last line had.
func (p *packed) length() int { return p.last }

// why gives why a part can't be read, having read its rest: what a flipped bit makes of it may look like any fault.
func (p *packed) why(err error) error {
	if !errors.As(err, &unreadable{}) && !errors.Is(err, errDamaged) {
		is, failed := p.isAsWritten()
		if is {
			return err
		}
		err = orDamaged(failed)
	}
	if errors.As(err, &unreadable{}) {
		return whyUnread(err)
	}
	return err
}

// whyUnread gives why what is compressed can't be read: its end isn't there, its bytes aren't those that were written, or they can't be had.
func whyUnread(err error) error {
	var corrupt flate.CorruptInputError
	switch {
	case errors.Is(err, io.ErrUnexpectedEOF):
		return errMiddle
	case errors.As(err, &corrupt) || errors.Is(err, gzip.ErrChecksum) || errors.Is(err, gzip.ErrHeader):
		return errDamaged
	}
	return fmt.Errorf("it can't be read: %w", err)
}
