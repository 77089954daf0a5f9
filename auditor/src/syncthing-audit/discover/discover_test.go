package discover

import (
	"encoding/binary"
	"errors"
	"net"
	"net/netip"
	"reflect"
	"regexp"
	"runtime/debug"
	"strings"
	"testing"
	"time"

	"github.com/syncthing/syncthing/lib/protocol"
	"syncthing-audit/fixture"
	"syncthing-audit/message"
)

// announcement is a packet as Syncthing sends it.
func announcement(id []byte, addresses ...string) []byte {
	packet := message.AppendText(binary.BigEndian.AppendUint32(nil, magic), announceID, id)
	for _, address := range addresses {
		packet = message.AppendText(packet, announceAddress, []byte(address))
	}
	return message.AppendNumber(packet, 3, 12345)
}

var id = protocol.DeviceID{0: 3, 9: 7}

// Of what is announced the addresses of TCP are taken, by their numbers alone; one that is left out is where the packet came from.
func TestAddresses(t *testing.T) {
	const four, six = "192.0.2.7", "fe80::7%eth0"
	for _, row := range []struct{ announced, from, address string }{
		{"tcp://0.0.0.0:22000", four, "192.0.2.7:22000"}, {"tcp://:22000", four, "192.0.2.7:22000"}, {"tcp://[::]:22000", four, "192.0.2.7:22000"},
		{"tcp://[::]:22000", six, "[fe80::7%eth0]:22000"}, {"tcp4://0.0.0.0:22000", six, ""}, {"tcp6://[::]:22000", four, ""}, {"tcp6://[::]:22000", six, "[fe80::7%eth0]:22000"},
		{"tcp://198.51.100.1:1", four, "198.51.100.1:1"}, {"tcp://[2001:db8::1]:65535", four, "[2001:db8::1]:65535"}, {"tcp://:22000", "::ffff:192.0.2.7", "192.0.2.7:22000"},
		{"quic://0.0.0.0:22000", four, ""}, {"relay://192.0.2.1:443/?id=x", four, ""}, {"tcp://evil.example:22000", four, ""}, {"tcp://0.0.0.0:0", four, ""},
		{"tcp://0.0.0.0:99999", four, ""}, {"tcp://0.0.0.0", four, ""}, {"tcp://[ff12::8384]:22000", four, ""}, {"", four, ""}, {"tcp://%zz", four, ""}, {":", four, ""},
	} {
		got, addresses, err := read(announcement(id[:], row.announced), netip.MustParseAddr(row.from))
		if err != nil || got != id || strings.Join(addresses, " ") != row.address {
			t.Errorf("%q from %s: %v, %v", row.announced, row.from, addresses, err)
		}
	}
}

// What is no announcement is told, whatever it is, and of very many addresses some are taken.
func TestWhatIsNone(t *testing.T) {
	from, good := netip.MustParseAddr("192.0.2.7"), announcement(id[:], "tcp://:22000")
	other := append([]byte{}, good...)
	other[0]++
	for why, packet := range map[string][]byte{"nothing": nil, "short": good[:3], "of another protocol": other, "without a device": announcement(nil, "tcp://:22000"),
		"of a short id": announcement(id[:20], "tcp://:22000"), "cut": good[:len(good)-1]} {
		if _, _, err := read(packet, from); err == nil {
			t.Errorf("a packet that is %s is read", why)
		}
	}
	many := make([]string, 1000)
	for at := range many {
		many[at] = "tcp://:22000"
	}
	if _, addresses, err := read(announcement(id[:], many...), from); err != nil || len(addresses) != mostAddresses {
		t.Errorf("%d addresses, %v", len(addresses), err)
	}
}

// Packets are heard over loopback, broadcasts and multicasts, and what is none of them costs nothing. Another one may hear the group at the same port.
func TestHearing(t *testing.T) {
	if six, err := net.ListenPacket("udp6", "[::1]:0"); err != nil {
		t.Skip("this machine has no IPv6")
	} else {
		six.Close()
	}
	port := 0
	var listener *Listener
	for try := 22100; try < 22200 && listener == nil; try++ {
		if both, err := Listen(try); err == nil && len(both.sockets) == 2 {
			listener, port = both, try
		} else if err == nil {
			both.Close()
		}
	}
	if listener == nil {
		t.Fatal("no port of a hundred is there for both, broadcasts and multicasts")
	}
	defer listener.Close()
	second, err := Listen(port)
	if err != nil || len(second.sockets) != 1 {
		t.Fatal("where broadcasts are taken, multicasts aren't heard", err)
	}
	defer second.Close()
	// Which of the two sockets of one group gets a packet is the kernel's choice, so both are heard throughout.
	heard := make(chan Heard, 4)
	for _, hearing := range []*Listener{listener, second} {
		go func(hearing *Listener) {
			for next, err := hearing.Next(); err == nil; next, err = hearing.Next() {
				heard <- next
			}
		}(hearing)
	}
	for _, row := range []struct {
		network string
		to      net.IP
	}{{"udp4", net.IPv4(127, 0, 0, 1)}, {"udp6", net.IPv6loopback}} {
		sender, err := net.DialUDP(row.network, nil, &net.UDPAddr{IP: row.to, Port: port})
		if err != nil {
			t.Fatal(err)
		}
		defer sender.Close()
		for _, packet := range [][]byte{[]byte("noise"), announcement(id[:], "relay://x"), announcement(id[:], "tcp://:4711")} {
			if _, err := sender.Write(packet); err != nil {
				t.Fatal(err)
			}
		}
		expected := Heard{id, []string{net.JoinHostPort(row.to.String(), "4711")}}
		select {
		case got := <-heard:
			if !reflect.DeepEqual(got, expected) {
				t.Errorf("%s: %v", row.network, got)
			}
		case <-time.After(20 * time.Second):
			t.Errorf("%s: nothing is heard", row.network)
		}
	}
}

// socket is one of which a test says what it gives, and then that it is closed.
type socket struct {
	net.PacketConn
	gives []given
}

// given is what a socket gives.
type given struct {
	packet []byte
	from   net.Addr
	err    error
}

func (s *socket) ReadFrom(to []byte) (int, net.Addr, error) {
	if len(s.gives) == 0 {
		return 0, nil, &net.OpError{Op: "read", Err: net.ErrClosed}
	}
	next := s.gives[0]
	s.gives = s.gives[1:]
	return copy(to, next.packet), next.from, next.err
}

// Whatever a socket gives, what is an announcement is heard, and nothing else; and no more than there is room for.
func TestWhatASocketGives(t *testing.T) {
	at, good := &net.UDPAddr{IP: net.IPv4(192, 0, 2, 7), Port: 9}, announcement(id[:], "tcp://:4711")
	gives := []given{{good, at, errors.New("some error")}, {good, &net.TCPAddr{}, nil}, {good[:5], at, nil}, {announcement(id[:], "relay://x"), at, nil}, {nil, nil, errors.New("some error")}}
	for number := 0; number < 5; number++ {
		gives = append(gives, given{announcement(id[:], "tcp://:4711"), at, nil})
	}
	listener := &Listener{heard: make(chan Heard, 3), ended: make(chan struct{})}
	ended := make(chan struct{})
	go func() { listener.hear(&socket{gives: gives}); close(ended) }()
	select {
	case <-ended:
	case <-time.After(20 * time.Second):
		t.Fatal("it reads what is closed")
	}
	if len(listener.heard) != 3 {
		t.Fatalf("%d are heard", len(listener.heard))
	}
	for number := 0; number < 3; number++ {
		if heard, err := listener.Next(); err != nil || !reflect.DeepEqual(heard, Heard{id, []string{"192.0.2.7:4711"}}) {
			t.Errorf("%v, %v", heard, err)
		}
	}
}

// Where nothing can be heard it is told why, and nothing stays open. A listener that is closed gives nothing more, and its port is free.
func TestWhatCannotBeHeard(t *testing.T) {
	defer debug.SetGCPercent(debug.SetGCPercent(-1)) // the collector closes sockets of which nobody knows any more
	before := fixture.CountOpened(t, fixture.Any)
	listener, err := Listen(-1)
	if listener != nil || err == nil || !regexp.MustCompile("^no announcements can be heard: listen udp4: .*; listen udp6: ").MatchString(err.Error()) {
		t.Errorf("%v", err)
	}
	for _, networks := range [][]net.Interface{nil, {{Index: 1 << 30}}} {
		if socket, err := listenToGroup(0, networks); socket != nil || err == nil {
			t.Errorf("%v: %v", networks, err)
		}
	}
	if after := fixture.CountOpened(t, fixture.Any); after > before {
		t.Errorf("%d files are open, and %d before", after, before)
	}
	if listener, err = Listen(0); err != nil {
		t.Skip(err)
	}
	if fixture.CountOpened(t, fixture.Any) <= before {
		t.Error("nothing is open")
	}
	listener.Close()
	if heard, err := listener.Next(); err != net.ErrClosed {
		t.Errorf("%v, %v", heard, err)
	}
	for tries := 0; fixture.CountOpened(t, fixture.Any) > before; tries++ {
		if tries == 2000 {
			t.Fatal("a socket stays open")
		}
		time.Sleep(10 * time.Millisecond)
	}
}
