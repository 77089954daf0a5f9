package wire

import (
	"fmt"
	"time"

	"google.golang.org/protobuf/encoding/protowire"
	"syncthing-audit/message"
	"syncthing-audit/request"
)

// The numbers of a Response's fields, and its codes (BEP, 'Fields (Response)').
const (
	responseID   protowire.Number = 1
	responseData protowire.Number = 2
	responseCode protowire.Number = 3

	codeNone        = 0
	codeNoSuchFile  = 2
	codeInvalidFile = 3
)

// response is what a device answers to a request.
type response struct {
	code uint64
	data []byte
}

// read reads what the device sends, until the connection ends.
func (c *Connection) read() {
	defer close(c.ended)
	for {
		err := c.readNext()
		if err == nil {
			continue
		}
		c.stream.Close()
		c.mutex.Lock()
		defer c.mutex.Unlock()
		if c.failure == nil {
			c.failure = ended(err)
		}
		for id, waiting := range c.waiting {
			close(waiting)
			delete(c.waiting, id)
		}
		return
	}
}

// readNext reads a message, and does what it asks for.
func (c *Connection) readNext() error {
	_ = c.stream.SetReadDeadline(time.Now().Add(c.limits.Silence))
	what, text, err := readFrame(c.stream, c.limits.Message, func() { _ = c.stream.SetReadDeadline(time.Now().Add(c.limits.Frame)) })
	if err != nil {
		return err
	}
	switch what {
	case kindIndex, kindIndexUpdate:
		return c.takeIndex(text, what == kindIndexUpdate)
	case kindResponse:
		return c.takeResponse(text)
	case kindRequest:
		return c.refuse(text)
	case kindClose:
		return fmt.Errorf("%w by the device", Closed)
	}
	return nil // pings, later ClusterConfigs, and what isn't known
}

// takeIndex takes a message of a folder's index. One of a folder that isn't observed counts, and nothing is taken of it.
func (c *Connection) takeIndex(text []byte, isUpdate bool) error {
	id, err := idIn(text)
	if err != nil {
		return badly("an index", err)
	}
	of := c.Shared(id)
	c.mutex.Lock()
	defer c.mutex.Unlock()
	if of == nil {
		return c.spent.take(text, &c.limits)
	}
	if err := of.taker.take(text, isUpdate); err != nil {
		return err
	}
	c.heard = time.Now()
	select {
	case c.news <- struct{}{}:
	default:
	}
	return nil
}

// takeResponse gives an answer to the one who waits for it.
func (c *Connection) takeResponse(text []byte) error {
	var id int32
	var said response
	err := message.Each(text, func(field message.Field) error {
		switch field.Number {
		case responseID:
			id = int32(field.Value)
		case responseData:
			said.data = field.Text
		case responseCode:
			said.code = field.Value
		}
		return nil
	})
	if err != nil {
		return badly("an answer", err)
	}
	c.mutex.Lock()
	defer c.mutex.Unlock()
	if waiting := c.waiting[id]; waiting != nil {
		delete(c.waiting, id)
		c.answers.steps++
		c.answers.bytes += int64(len(said.data))
		waiting <- said
	}
	return nil
}

// refuse answers a request with 'no such file'. No device has a reason for one.
func (c *Connection) refuse(text []byte) error {
	var id uint64
	err := message.Each(text, func(field message.Field) error {
		if field.Number == request.FieldOfID {
			id = field.Value
		}
		return nil
	})
	if err != nil {
		return badly("a request", err)
	}
	c.mutex.Lock()
	c.asked++
	c.mutex.Unlock()
	return c.send(kindResponse, message.AppendNumber(message.AppendNumber(nil, responseID, id), responseCode, codeNoSuchFile))
}

// ping keeps the connection open while nothing else is sent.
func (c *Connection) ping() {
	ticker := time.NewTicker(c.limits.Ping)
	defer ticker.Stop()
	for {
		select {
		case <-c.ended:
			return
		case <-ticker.C:
			_ = c.send(kindPing, nil)
		}
	}
}
