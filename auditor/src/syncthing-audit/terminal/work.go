package terminal

import (
	"fmt"
	"io"
	"strings"
	"sync/atomic"
	"time"
)

// Work counts what a run has done up to now. What a run hasn't got, such as parts, isn't told.
type Work struct {
	Verb     string       // what is done with bytes of files, unless they are hashed
	Hashed   func() int64 // bytes of files
	ToHash   int64        // as the indexes say; 0 where that isn't known
	pace     pace         // of the hashing
	Read     atomic.Int64 // bytes of parts
	ToRead   int64
	Joined   atomic.Int64 // names
	Asked    atomic.Int64 // pieces: streams of names, and documents
	Answered atomic.Int64
}

// Line says how far the work is.
func (w *Work) Line(now time.Time) string {
	told := []string{}
	if w.Hashed != nil {
		told = append(told, w.hashing(now))
	}
	if w.ToRead > 0 {
		told = append(told, fmt.Sprintf("read %d %% of the parts", 100*w.Read.Load()/w.ToRead))
	}
	if joined := w.Joined.Load(); joined > 0 {
		told = append(told, fmt.Sprintf("joined %d names", joined))
	}
	if asked := w.Asked.Load(); asked > 0 {
		told = append(told, fmt.Sprintf("syncaudit answered %d of %d pieces", w.Answered.Load(), asked))
	}
	return strings.Join(told, "; ")
}

// hashing says how many bytes were hashed, and how long the rest may take.
func (w *Work) hashing(now time.Time) string {
	done, verb := w.Hashed(), w.Verb
	if verb == "" {
		verb = "hashed"
	}
	w.pace.add(now, done)
	line := verb + " " + amounts(done, w.ToHash)
	if left, is := w.pace.left(w.ToHash - done); is {
		line += ", " + leftOf(left)
	}
	return line
}

// Counted is a reader that counts what is read.
type Counted struct {
	From io.Reader
	To   *atomic.Int64
}

func (c Counted) Read(data []byte) (int, error) {
	count, err := c.From.Read(data)
	c.To.Add(int64(count))
	return count, err
}
