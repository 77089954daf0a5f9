package part

import (
	"io"

	"syncthing-audit/outside"
)

// LinesWriter writes what a part has as lines of JSON, which a person can read. Compressed by gzip they are a part of encoding 1.
type LinesWriter struct{ to io.Writer }

// NewLinesWriter begins with a head.
func NewLinesWriter(to io.Writer, head *Head) (*LinesWriter, error) {
	return &LinesWriter{to}, outside.PrintJSON(to, head)
}

// Take writes a line.
func (w *LinesWriter) Take(line Line) error {
	if line.Name != nil {
		line.Name = new(shortener).shorten(line.Name)
	}
	return outside.PrintJSON(w.to, line)
}

// Show writes a part as lines of JSON, up to its end or to what is wrong with it.
func Show(to io.Writer, from Stream) error {
	writer, err := NewLinesWriter(to, from.Head())
	for err == nil {
		var line Line
		if line, err = from.Next(); err == nil {
			err = writer.Take(line)
		}
	}
	if err == io.EOF {
		return nil
	}
	return err
}
