// Package discover hears where devices are by what Syncthing announces in the local network. It sends nothing.
package discover

import (
	"encoding/binary"
	"errors"
	"net"
	"net/netip"
	"net/url"
	"strconv"

	"github.com/syncthing/syncthing/lib/protocol"
	"google.golang.org/protobuf/encoding/protowire"
	"syncthing-audit/message"
)

// The port and the group to which Syncthing announces itself where nothing else is configured: by broadcasts over IPv4, by multicasts over IPv6.
const (
	UsualPort  = 21027
	usualGroup = "ff12::8384"
)

// magic begins each announcement.
const magic = 0x2EA7D90B

// The numbers of an announcement's fields (Local Discovery Protocol v4).
const (
	announceID      protowire.Number = 1
	announceAddress protowire.Number = 2
)

// mostAddresses is how many addresses of an announcement are taken: more than any device has.
const mostAddresses = 64

// errNone says that a packet is no announcement.
var errNone = errors.New("it is no announcement")

// read reads an announcement: whose it is, and at which addresses and ports it takes connections over TCP. An announcement may leave out its address:
// it is where the packet came from then. Whoever is in the network may announce what he likes, so no name is looked up.
func read(packet []byte, from netip.Addr) (protocol.DeviceID, []string, error) {
	if len(packet) < 4 || binary.BigEndian.Uint32(packet) != magic {
		return protocol.DeviceID{}, nil, errNone
	}
	var id protocol.DeviceID
	addresses, hasID := []string{}, false
	err := message.Each(packet[4:], func(field message.Field) error {
		switch field.Number {
		case announceID:
			var err error
			id, err = protocol.DeviceIDFromBytes(field.Text)
			hasID = true
			return err
		case announceAddress:
			if address := addressOf(string(field.Text), from); address != "" && len(addresses) < mostAddresses {
				addresses = append(addresses, address)
			}
		}
		return nil
	})
	if err == nil && !hasID {
		err = errNone
	}
	return id, addresses, err
}

// addressOf gives an announced address as HOST:PORT, where it is one of TCP; nothing of others.
func addressOf(announced string, from netip.Addr) string {
	read, err := url.Parse(announced)
	if err != nil || read.Scheme != "tcp" && read.Scheme != "tcp4" && read.Scheme != "tcp6" {
		return ""
	}
	host, port, err := net.SplitHostPort(read.Host)
	if err != nil {
		return ""
	}
	if number, err := strconv.ParseUint(port, 10, 16); err != nil || number == 0 {
		return ""
	}
	at := from
	if host != "" {
		if at, err = netip.ParseAddr(host); err != nil {
			return ""
		}
		if at.IsUnspecified() {
			at = from
		}
	}
	at = at.Unmap()
	if at.IsMulticast() || read.Scheme == "tcp4" && !at.Is4() || read.Scheme == "tcp6" && at.Is4() {
		return ""
	}
	return net.JoinHostPort(at.String(), port)
}
