package wire

import (
	"context"
	"fmt"
	"math"
	"time"

	"syncthing-audit/request"
)

// ask sends a request on a folder, and gives what the device answers.
func (c *Connection) ask(ctx context.Context, folder string, asked request.Request) (response, error) {
	ctx, cancel := context.WithTimeout(ctx, c.limits.Answer)
	defer cancel()
	waiting := make(chan response, 1)
	id, err := c.expect(waiting)
	if err != nil {
		return response{}, err
	}
	if err := c.send(kindRequest, asked.Message(id, folder)); err != nil {
		return response{}, err
	}
	select {
	case said, isOpen := <-waiting:
		if !isOpen {
			return response{}, c.ending()
		}
		if said.code == codeNone && len(said.data) != int(asked.Size()) {
			return response{}, fmt.Errorf("%w: %d bytes in place of %d", WrongLength, len(said.data), asked.Size())
		}
		return said, nil
	case <-ctx.Done():
		c.forget(id)
		return response{}, fmt.Errorf("%w: no answer to a request within %v", TooLate, c.limits.Answer.Round(time.Millisecond))
	}
}

// expect gives a request its number.
func (c *Connection) expect(waiting chan response) (id int32, err error) {
	c.mutex.Lock()
	defer c.mutex.Unlock()
	if c.failure != nil {
		return id, c.failure
	}
	for isFree := false; !isFree; isFree = c.waiting[c.next] == nil {
		c.next = c.next%math.MaxInt32 + 1 // above 0, and behind the greatest one anew
	}
	c.waiting[c.next] = waiting
	return c.next, nil
}

// forget takes a request for one that isn't answered any more.
func (c *Connection) forget(id int32) {
	c.mutex.Lock()
	defer c.mutex.Unlock()
	delete(c.waiting, id)
}

// ending says why the connection has ended.
func (c *Connection) ending() error {
	c.mutex.Lock()
	defer c.mutex.Unlock()
	return c.failure
}
