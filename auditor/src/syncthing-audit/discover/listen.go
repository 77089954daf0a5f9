package discover

import (
	"errors"
	"fmt"
	"net"
	"strconv"

	"github.com/syncthing/syncthing/lib/protocol"
	"golang.org/x/net/ipv6"
)

// Heard is where a device says that it is. Whether it is that device shows once one connects.
type Heard struct {
	Device    protocol.DeviceID
	Addresses []string // HOST:PORT
}

// Listener hears announcements.
type Listener struct {
	sockets []net.PacketConn
	heard   chan Heard
	ended   chan struct{}
}

// Listen begins to hear announcements at a port. Where a Syncthing on this machine has the port of broadcasts, multicasts are heard.
func Listen(port int) (*Listener, error) {
	listener := &Listener{heard: make(chan Heard, 64), ended: make(chan struct{})}
	broadcasts, errOfBroadcasts := net.ListenPacket("udp4", ":"+strconv.Itoa(port))
	if errOfBroadcasts == nil {
		listener.sockets = append(listener.sockets, broadcasts)
	}
	networks, _ := net.Interfaces() // none where they aren't known
	multicasts, err := listenToGroup(port, networks)
	if err == nil {
		listener.sockets = append(listener.sockets, multicasts)
	}
	if len(listener.sockets) == 0 {
		return nil, fmt.Errorf("no announcements can be heard: %v; %w", errOfBroadcasts, err)
	}
	for _, socket := range listener.sockets {
		go listener.hear(socket)
	}
	return listener, nil
}

// listenToGroup joins the group on each of these networks that takes part in such. Others may listen to it at the same port: Go lets them.
func listenToGroup(port int, networks []net.Interface) (net.PacketConn, error) {
	socket, err := net.ListenPacket("udp6", net.JoinHostPort(usualGroup, strconv.Itoa(port)))
	if err != nil {
		return nil, err
	}
	isJoined := false
	for at := range networks {
		err := ipv6.NewPacketConn(socket).JoinGroup(&networks[at], &net.UDPAddr{IP: net.ParseIP(usualGroup)})
		isJoined = isJoined || err == nil
	}
	if !isJoined {
		socket.Close()
		return nil, errors.New("no network has multicasts")
	}
	return socket, nil
}

// longestPacket is that of UDP.
const longestPacket = 65536

// hear hears announcements until the socket is closed. Where nobody takes them fast enough, they are dropped: devices announce themselves again.
func (l *Listener) hear(socket net.PacketConn) {
	packet := make([]byte, longestPacket)
	for {
		length, from, err := socket.ReadFrom(packet)
		if errors.Is(err, net.ErrClosed) {
			return
		}
		at, is := from.(*net.UDPAddr)
		if err != nil || !is {
			continue
		}
		id, addresses, err := read(packet[:length], at.AddrPort().Addr())
		if err != nil || len(addresses) == 0 {
			continue
		}
		select {
		case l.heard <- Heard{id, addresses}:
		default:
		}
	}
}

// Next gives what is heard next, until the listener is closed.
func (l *Listener) Next() (Heard, error) {
	select {
	case heard := <-l.heard:
		return heard, nil
	case <-l.ended:
		return Heard{}, net.ErrClosed
	}
}

// Close ends the hearing.
func (l *Listener) Close() {
	close(l.ended)
	for _, socket := range l.sockets {
		socket.Close()
	}
}
