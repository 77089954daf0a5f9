package observing

import (
	"context"
	"errors"
	"fmt"
	"net"
	"time"

	"github.com/syncthing/syncthing/lib/protocol"
	"syncthing-audit/observe"
	"syncthing-audit/wire"
)

// timeToConnect is how long a device that connects by itself is awaited: Syncthing tries each 60 s.
var timeToConnect = 3 * time.Minute

// listen begins to take connections that devices open, if that is asked for.
func (o *observing) listen() error {
	o.failed, o.devices, o.walked = map[int]error{}, make([]*observe.Device, len(o.addresses)), map[int][]*observe.Walked{}
	o.awaited, o.looks = map[protocol.DeviceID]chan *wire.Connection{}, map[protocol.DeviceID]wire.Look{}
	o.isWaited, o.isBegun, o.kept = map[protocol.DeviceID]bool{}, map[protocol.DeviceID]bool{}, map[protocol.DeviceID]map[string]*observe.Kept{}
	if o.asked.Listen == "" {
		return nil
	}
	for _, address := range o.addresses {
		if address.where == "" {
			o.awaited[address.id] = make(chan *wire.Connection, 1)
		}
	}
	incoming, err := net.Listen("tcp", portOf(o.asked.Listen))
	if err != nil {
		return fmt.Errorf("refused: --listen %s: %w", o.asked.Listen, err)
	}
	o.incoming = incoming
	go o.accept()
	return nil
}

// mostIncoming is how many connections may be at their begin at once, and pauseOfAccepting how long none is taken after one couldn't be.
const (
	mostIncoming     = 512
	pauseOfAccepting = 100 * time.Millisecond
)

// accept takes connections until the listener is closed. Whoever connects often enough has descriptors run short for a while.
func (o *observing) accept() {
	begun := make(chan struct{}, mostIncoming)
	for {
		raw, err := o.incoming.Accept()
		if errors.Is(err, net.ErrClosed) {
			return
		}
		if err != nil {
			time.Sleep(pauseOfAccepting)
			continue
		}
		begun <- struct{}{}
		go func() {
			defer func() { <-begun }()
			o.takeIncoming(raw)
		}()
	}
}

// takeIncoming takes the connection of a device that is awaited, and closes each other one before anything is said.
func (o *observing) takeIncoming(raw net.Conn) {
	begun := protocol.EmptyDeviceID
	connection, err := o.observer.Accept(context.Background(), raw, wire.Usual, func(id protocol.DeviceID) (wire.Look, bool) {
		if !o.begin(id) {
			return wire.Look{}, false
		}
		begun = id
		return o.lookAt(id), true
	})
	if err != nil {
		raw.Close()
		o.mutex.Lock()
		defer o.mutex.Unlock()
		delete(o.isBegun, begun)
		return
	}
	o.awaited[connection.Device] <- connection
}

// lookAt gives what a look asks of a device.
func (o *observing) lookAt(id protocol.DeviceID) wire.Look {
	o.mutex.Lock()
	defer o.mutex.Unlock()
	return o.looks[id]
}

// begin says whether a device is awaited at this moment: one that came back before the second looks begin would say what it had then. One connection of it
// is begun alone, as that writes the indexes of the look.
func (o *observing) begin(id protocol.DeviceID) bool {
	o.mutex.Lock()
	defer o.mutex.Unlock()
	is := o.isWaited[id] && !o.isBegun[id]
	o.isBegun[id] = o.isBegun[id] || is
	return is
}

// await says whether a device is awaited from now on.
func (o *observing) await(id protocol.DeviceID, is bool) {
	o.mutex.Lock()
	defer o.mutex.Unlock()
	o.isWaited[id], o.isBegun[id] = is, false
}

// connect connects to a device, or waits until it connects.
func (o *observing) connect(at int) (*wire.Connection, error) {
	address := o.addresses[at]
	if address.where != "" || address.isKept {
		return o.dial(at)
	}
	o.await(address.id, true)
	defer o.await(address.id, false)
	select {
	case connection := <-o.awaited[address.id]:
		return connection, nil
	case <-time.After(timeToConnect):
		return nil, fmt.Errorf("%w: it didn't connect within %v", wire.Unreached, timeToConnect)
	}
}
