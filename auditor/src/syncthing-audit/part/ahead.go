package part

import "errors"

// How much of a part is read ahead: so many batches, each of so many lines or, where these are long, of as many as have so many bytes. One line
// more may come in each, which has as many bytes as a line may have.
const (
	batchesAhead  = 4
	linesOfABatch = 64
	bytesOfABatch = 1 << 16
)

// Ahead reads a part in a routine of its own, ahead of the one who asks, so that several parts are read at once.
type Ahead struct {
	reader  *Reader
	batches chan batch
	stopped chan struct{}
	batch   batch
	place   int // of the next line in the batch
}

// batch are lines, and why none follows.
type batch struct {
	lines []Line
	err   error
}

// errClosed says that nobody reads any more.
var errClosed = errors.New("the reading was ended")

// NewAhead begins to read a part.
func NewAhead(reader *Reader) *Ahead {
	a := &Ahead{reader: reader, batches: make(chan batch, batchesAhead), stopped: make(chan struct{})}
	go func() {
		defer close(a.batches)
		for {
			next := reader.batch()
			select {
			case a.batches <- next:
			case <-a.stopped:
				return
			}
			if next.err != nil {
				return
			}
		}
	}()
	return a
}

// batch reads lines, or the error behind them.
func (r *Reader) batch() (read batch) {
	read.lines = make([]Line, 0, linesOfABatch)
	for bytes := 0; len(read.lines) < linesOfABatch && bytes < bytesOfABatch; bytes += r.text.length() {
		line, err := r.Next()
		if err != nil {
			read.err = err
			break
		}
		read.lines = append(read.lines, line)
	}
	return read
}

// Head gives the part's head.
func (a *Ahead) Head() *Head { return a.reader.Head() }

// Next gives the next line; io.EOF behind the last.
func (a *Ahead) Next() (Line, error) {
	for a.place == len(a.batch.lines) {
		if a.batch.err != nil {
			return Line{}, a.batch.err
		}
		next, is := <-a.batches
		if !is {
			next.err = errClosed
		}
		a.batch, a.place = next, 0
	}
	a.place++
	return a.batch.lines[a.place-1], nil
}

// Close ends the reading, and waits until nothing of it runs any more.
func (a *Ahead) Close() {
	close(a.stopped)
	for range a.batches {
	}
}
