package part

import (
	"bufio"
	"encoding/json"
	"errors"
	"fmt"
	"io"
)

// lines reads a part of encoding 1, as programs up to 0.16 write it: lines of JSON.
type lines struct {
	from *bufio.Reader
	last int
}

// readHead reads the head.
func (l *lines) readHead(into *Head) error { return l.read(into, mostHeadBytes) }

// readLine reads the next line; io.EOF behind the last.
func (l *lines) readLine() (line Line, err error) {
	err = l.read(&line, mostLineBytes)
	return line, err
}

// length gives how many bytes the last line had.
func (l *lines) length() int { return l.last }

// why gives why a part can't be read.
func (l *lines) why(err error) error { return err }

// read reads a line of at most so many bytes into a value.
func (l *lines) read(into interface{}, most int) error {
	text, err := l.from.ReadSlice('\n')
	if err == bufio.ErrBufferFull {
		text, err = l.readOn(text, most)
	}
	if err := whyNoLine(text, err, most); err != nil {
		return err
	}
	l.last = len(text)
	return json.Unmarshal(text, into)
}

// readOn reads the rest of a line, as far as it may go.
func (l *lines) readOn(begin []byte, most int) ([]byte, error) {
	whole, err := append([]byte(nil), begin...), bufio.ErrBufferFull
	for err == bufio.ErrBufferFull && len(whole) <= most {
		var text []byte
		text, err = l.from.ReadSlice('\n')
		whole = append(whole, text...)
	}
	if len(whole) > most {
		err = bufio.ErrBufferFull
	}
	return whole, err
}

// whyNoLine says why what was read up to an error is no line of at most so many bytes; io.EOF where nothing is left.
func whyNoLine(text []byte, err error, most int) error {
	switch {
	case err == io.EOF && len(text) == 0:
		return io.EOF
	case err == io.EOF:
		return errors.New("its last line isn't whole")
	case err == bufio.ErrBufferFull:
		return fmt.Errorf("it has over %d bytes", most)
	case err != nil:
		return fmt.Errorf("it can't be read: %w", err)
	}
	return nil
}
