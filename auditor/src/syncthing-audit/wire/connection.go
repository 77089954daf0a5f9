// Package wire asks running devices over Syncthing's own protocol, as a device that keeps no files and sends no record: for their indexes, and for what
// bytes stand on their disks.
package wire

import (
	"context"
	"crypto/tls"
	"errors"
	"fmt"
	"net"
	"sync"
	"time"

	"github.com/syncthing/syncthing/lib/protocol"
	"syncthing-audit/message"
)

// Connection is a connection with a device, on which folders are observed. What it sends is a Hello, one ClusterConfig, requests by which
// nothing is changed, pings and a Close. It has no way to send a record.
type Connection struct {
	Device  protocol.DeviceID
	Hello   Hello
	Folders []*Shared        // those that are observed, rising by id
	Out     map[string]error // why others that were asked for aren't, by their ids

	stream *tls.Conn
	limits Limits

	writing sync.Mutex
	mutex   sync.Mutex // for what is below, and for what the takers have
	spent   spent
	next    int32
	waiting map[int32]chan response
	asked   int
	answers gave // to requests
	heard   time.Time
	failure error
	news    chan struct{} // one waits there once an index message was taken
	ended   chan struct{}
}

// Look is what is asked of a device.
type Look struct {
	Folders []string // nothing for all that the device shares with the observer
	Kept    Keeper   // nothing where no index was kept

	Passwords map[string]string // of encrypted folders, by their ids
}

// Dial connects to a device at an address, and has it tell its indexes of folders. Of an index that was kept the device tells what came since, if it is
// still the same one.
func (o *Observer) Dial(ctx context.Context, address string, id protocol.DeviceID, look Look, limits Limits) (*Connection, error) {
	ctx, cancel := context.WithTimeout(ctx, limits.Handshake)
	defer cancel()
	raw, err := (&net.Dialer{}).DialContext(ctx, "tcp", address)
	if err != nil {
		return nil, fmt.Errorf("%w: %v", Unreached, err)
	}
	stream := tls.Client(raw, o.tls())
	return o.begin(ctx, stream, limits, func(found protocol.DeviceID) (Look, bool) { return look, found == id })
}

// Accept takes a connection that a device opened, as Dial does. Wanted says which devices are wanted, and what is asked of each.
func (o *Observer) Accept(ctx context.Context, raw net.Conn, limits Limits, wanted Wanted) (*Connection, error) {
	ctx, cancel := context.WithTimeout(ctx, limits.Handshake)
	defer cancel()
	return o.begin(ctx, tls.Server(raw, o.tls()), limits, wanted)
}

// Wanted says of a device whether it is wanted, and what is asked of it.
type Wanted func(protocol.DeviceID) (look Look, is bool)

// begin begins a connection up to the observer's ClusterConfig.
func (o *Observer) begin(ctx context.Context, stream *tls.Conn, limits Limits, wanted Wanted) (*Connection, error) {
	connection := &Connection{stream: stream, limits: limits, Out: map[string]error{}, waiting: map[int32]chan response{}, news: make(chan struct{}, 1), ended: make(chan struct{})}
	look, err := connection.introduce(ctx, wanted)
	if err == nil {
		err = o.agree(connection, look)
	}
	if err != nil {
		stream.Close()
		return nil, err
	}
	connection.heard = time.Now()
	go connection.read()
	go connection.ping()
	return connection, nil
}

// introduce does what goes before all messages: TLS with a device that is wanted, and both Hellos. It gives what is asked of the device.
func (c *Connection) introduce(ctx context.Context, wanted Wanted) (Look, error) {
	end, _ := ctx.Deadline()
	if err := c.stream.SetDeadline(end); err != nil {
		return Look{}, fmt.Errorf("%w: %v", Unreached, err)
	}
	if err := c.stream.HandshakeContext(ctx); err != nil {
		return Look{}, fmt.Errorf("%w: %v", NotSyncthing, err)
	}
	certificates := c.stream.ConnectionState().PeerCertificates
	if len(certificates) != 1 {
		return Look{}, fmt.Errorf("%w: it shows %d certificates", NotSyncthing, len(certificates))
	}
	c.Device = protocol.NewDeviceID(certificates[0].Raw)
	look, isWanted := wanted(c.Device)
	if !isWanted {
		return Look{}, fmt.Errorf("%w: %s", AnotherDevice, c.Device)
	}
	if err := writeHello(c.stream); err != nil {
		return Look{}, fmt.Errorf("%w: %v", Closed, err)
	}
	said, err := readHello(c.stream, c.limits.Hello)
	c.Hello = said
	return look, err
}

// send sends a message.
func (c *Connection) send(what kind, body []byte) error {
	c.writing.Lock()
	defer c.writing.Unlock()
	if err := c.stream.SetWriteDeadline(time.Now().Add(c.limits.Frame)); err != nil {
		return fmt.Errorf("%w: %v", Closed, err)
	}
	_, err := c.stream.Write(frameOf(what, body))
	return ended(err)
}

// Close ends the connection.
func (c *Connection) Close() {
	_ = c.send(kindClose, message.AppendText(nil, 1, []byte("the look is over")))
	c.stream.Close()
	<-c.ended
}

// Asked gives how often the device asked the observer for bytes. That has nothing of which it could.
func (c *Connection) Asked() int {
	c.mutex.Lock()
	defer c.mutex.Unlock()
	return c.asked
}

// ended says why a connection has ended.
func ended(err error) error {
	var refusal Refusal
	var timeout net.Error
	switch {
	case err == nil || errors.As(err, &refusal):
		return err
	case errors.As(err, &timeout) && timeout.Timeout():
		return fmt.Errorf("%w: %v", TooLate, err)
	}
	return fmt.Errorf("%w: %v", Closed, err)
}
