// Package spill has lists that may be longer than memory has room for: what is beyond its first things goes into a file.
package spill

import (
	"bufio"
	"encoding/json"
	"fmt"
	"io"
	"os"

	"syncthing-audit/leftover"
)

// MostInMemory is how many things of a list stay in memory.
const MostInMemory = 1000

// List is a list of things that JSON can write. The empty one is ready for use.
type List[T any] struct {
	first   []T
	count   int64
	file    *os.File // nothing as long as all are in memory; it has no name, so it is gone with the program
	written *bufio.Writer
	encoder *json.Encoder
	err     error
}

// Len gives how many things there are.
func (l *List[T]) Len() int64 { return l.count }

// Err gives the first error of adding or reading. With one the list isn't whole.
func (l *List[T]) Err() error { return l.err }

// Add adds a thing at the end.
func (l *List[T]) Add(item T) {
	l.count++
	if len(l.first) < MostInMemory {
		l.first = append(l.first, item)
		return
	}
	if l.file == nil && l.err == nil {
		l.begin()
	}
	if l.err == nil {
		l.fail(l.encoder.Encode(item))
	}
}

// begin makes the file.
func (l *List[T]) begin() {
	file, err := leftover.Unnamed()
	if err != nil {
		l.fail(err)
		return
	}
	l.file, l.written = file, bufio.NewWriter(file)
	l.encoder = json.NewEncoder(l.written)
}

func (l *List[T]) fail(err error) {
	if err != nil && l.err == nil {
		l.err = fmt.Errorf("refused: what was found can't be kept in %s (TMPDIR may name another directory): %w", leftover.Place(), err)
	}
}

// Cursor goes through a list from its beginning.
type Cursor[T any] struct {
	list    *List[T]
	place   int64
	decoder *json.Decoder
	next    *T
}

// Read begins to go through the list, to which nothing is added meanwhile.
func (l *List[T]) Read() *Cursor[T] {
	cursor := &Cursor[T]{list: l}
	if l.file != nil && l.err == nil {
		l.fail(l.written.Flush())
		cursor.decoder = json.NewDecoder(bufio.NewReader(io.NewSectionReader(l.file, 0, 1<<62)))
	}
	return cursor
}

// Peek gives the next thing without taking it; nothing at the end, and after an error.
func (c *Cursor[T]) Peek() *T {
	switch {
	case c.place == c.list.count || c.list.err != nil:
		return nil
	case c.next != nil:
		return c.next
	case c.place < int64(len(c.list.first)):
		return &c.list.first[c.place]
	}
	c.next = new(T)
	if err := c.decoder.Decode(c.next); err != nil {
		c.list.fail(err)
		return nil
	}
	return c.next
}

// Take takes what Peek gives.
func (c *Cursor[T]) Take() {
	c.place++
	c.next = nil
}

// Each gives all things to take, one after another.
func (l *List[T]) Each(take func(*T)) {
	for next := l.Read(); next.Peek() != nil; next.Take() {
		take(next.Peek())
	}
}
