package wire

import (
	"context"
	"sync"

	"syncthing-audit/request"
)

// How many requests a device has to answer at once, and for how many bytes. It isn't faster with more, and the observer's memory is bounded:
// a block has up to 16 MiB. A request for more bytes than there is room for goes alone.
const (
	mostRequests = 64
	mostBytes    = 64 << 20
)

// room is the room for requests that aren't answered yet.
type room struct {
	mutex    sync.Mutex
	left     *sync.Cond
	requests int
	bytes    int64
}

func newRoom() *room {
	empty := &room{}
	empty.left = sync.NewCond(&empty.mutex)
	return empty
}

// enter waits until there is room for a request.
func (r *room) enter(asked request.Request) {
	r.mutex.Lock()
	defer r.mutex.Unlock()
	for r.requests == mostRequests || r.requests > 0 && r.bytes+int64(asked.Size()) > mostBytes {
		r.left.Wait()
	}
	r.requests++
	r.bytes += int64(asked.Size())
}

// leave gives a request's room back.
func (r *room) leave(asked request.Request) {
	r.mutex.Lock()
	defer r.mutex.Unlock()
	r.requests--
	r.bytes -= int64(asked.Size())
	r.left.Broadcast()
}

// mostBlocks is how many blocks the files have together that are looked at at once: the hashes of a block, as it is recorded and as it is found, take 100
// bytes, and a message has room for two million of them. A file with more blocks goes alone. Tests have fewer.
var mostBlocks = 1 << 20

// turns have files wait until those before them have let few enough blocks go. One file waits at a time.
type turns struct {
	mutex  sync.Mutex
	blocks int
	left   chan struct{} // one waits there once blocks were let go
}

func newTurns() *turns { return &turns{left: make(chan struct{}, 1)} }

// enter waits until a file has its turn, or until nobody wants it any more.
func (t *turns) enter(ctx context.Context, blocks int) error {
	for !t.takes(blocks) {
		select {
		case <-t.left:
		case <-ctx.Done():
			return ctx.Err()
		}
	}
	return nil
}

// takes takes a file, if it has its turn.
func (t *turns) takes(blocks int) bool {
	t.mutex.Lock()
	defer t.mutex.Unlock()
	if t.blocks > 0 && t.blocks+blocks > mostBlocks {
		return false
	}
	t.blocks += blocks
	return true
}

// leave lets a file's blocks go.
func (t *turns) leave(blocks int) {
	t.mutex.Lock()
	defer t.mutex.Unlock()
	t.blocks -= blocks
	select {
	case t.left <- struct{}{}:
	default:
	}
}
