package observing

import (
	"context"
	"encoding/binary"
	"errors"
	"fmt"
	"io"
	"net"
	"os"
	"path/filepath"
	"strings"
	"testing"
	"time"

	"github.com/syncthing/syncthing/lib/protocol"
	"syncthing-audit/discover"
	"syncthing-audit/exit"
	"syncthing-audit/fixture/stranger"
	"syncthing-audit/message"
	"syncthing-audit/wire"
)

// announce sends an announcement, as a device in this network does, until a channel is closed: one may be lost.
func announce(t *testing.T, port int, id protocol.DeviceID, address string, until <-chan struct{}, more ...string) {
	sender, err := net.DialUDP("udp4", nil, &net.UDPAddr{IP: net.IPv4(127, 0, 0, 1), Port: port})
	if err != nil {
		t.Error(err)
		return
	}
	defer sender.Close()
	packet := message.AppendText(message.AppendText(binary.BigEndian.AppendUint32(nil, 0x2EA7D90B), 1, id[:]), 2, []byte("tcp://"+address))
	for _, other := range more {
		packet = message.AppendText(packet, 2, []byte("tcp://"+other))
	}
	for {
		_, _ = sender.Write(packet) // it isn't heard yet
		select {
		case <-until:
			return
		case <-time.After(5 * time.Millisecond):
		}
	}
}

// freePort gives a port at which announcements can be heard.
func freePort(t *testing.T) int {
	socket, err := net.ListenPacket("udp4", "127.0.0.1:0")
	if err != nil {
		t.Fatal(err)
	}
	defer socket.Close()
	return socket.LocalAddr().(*net.UDPAddr).Port
}

// Where a device is shows once it announces itself; of one that doesn't it is told. Of very many devices no further one is kept, and of a known one what is newer.
func TestWhereADeviceAnnouncesItself(t *testing.T) {
	hearing, first := &discovering{port: freePort(t)}, protocol.DeviceID{1}
	hearing.close() // nobody hears yet
	over, cancel := context.WithCancel(context.Background())
	cancel()
	if _, err := hearing.where(over, first); err == nil || !strings.HasSuffix(err.Error(), "doesn't announce itself in this network") {
		t.Fatal(err)
	}
	defer hearing.close()
	until := make(chan struct{})
	defer close(until)
	go announce(t, hearing.port, first, "192.0.2.1:1", until)
	if found, err := hearing.where(context.Background(), first); err != nil || len(found) != 1 || found[0] != "192.0.2.1:1" {
		t.Fatal(found, err)
	}
	hearing.mutex.Lock()
	for number := len(hearing.found); number < mostFound; number++ {
		hearing.found[protocol.DeviceID{2, byte(number), byte(number >> 8)}] = discover.Heard{}
	}
	hearing.found[first] = discover.Heard{}
	delete(hearing.found, protocol.DeviceID{2, 1})
	hearing.mutex.Unlock()
	for _, row := range []struct {
		id      protocol.DeviceID
		isTaken bool
	}{{protocol.DeviceID{3}, true}, {protocol.DeviceID{4}, false}, {first, true}} {
		go announce(t, hearing.port, row.id, "192.0.2.3:3", until)
		ctx, cancel := context.WithTimeout(context.Background(), map[bool]time.Duration{true: 20 * time.Second, false: 50 * time.Millisecond}[row.isTaken])
		found, err := hearing.where(ctx, row.id)
		for row.isTaken && len(found) == 0 && err == nil { // what it was given above
			found, err = hearing.where(ctx, row.id)
		}
		if cancel(); (err == nil) != row.isTaken {
			t.Errorf("%v: %v, %v", row.id, found, err)
		}
	}
	taken, err := net.ListenPacket("udp4", ":0")
	if err != nil {
		t.Fatal(err)
	}
	defer taken.Close()
	deaf := &discovering{port: -1}
	for try := 0; try < 2; try++ {
		if _, err := deaf.where(context.Background(), first); err == nil || !strings.HasPrefix(err.Error(), "no announcements can be heard") {
			t.Error(err)
		}
	}
}

// A device that isn't where it was is asked where it announces itself. Where it is then is kept for the next run; where it was said to be nobody else is asked.
func TestADeviceThatMoved(t *testing.T) {
	hurry(t)
	timeToAnnounce = 20 * time.Second
	here := newWorld(t, 1, map[string]string{"a": "text"})
	device := here.devices[0]
	defer func(had int) { portOfAnnouncements = had }(portOfAnnouncements)
	portOfAnnouncements = freePort(t)
	until := make(chan struct{})
	go announce(t, portOfAnnouncements, device.ID, "127.0.0.1:1", until, device.Address) // at the first one nobody is
	given := here.asked.Parts[0]
	here.asked.Parts = []string{device.ID.String() + "@tcp://127.0.0.1:1"}
	here.expect("said to be where nobody is", exit.Refused, "not connected: "+string(wire.Unreached), "connection refused")
	here.asked.Parts = []string{device.ID.String()}
	here.expect("announced", exit.Partial, inStep)
	heard, err := net.ListenPacket("udp4", fmt.Sprint(":", portOfAnnouncements))
	if err != nil {
		t.Errorf("it is heard still: %v", err)
	} else {
		heard.Close()
	}
	kept := filepath.Join(here.asked.Homes[0], "addresses.json")
	text, err := os.ReadFile(kept)
	if err == nil {
		err = os.WriteFile(kept, []byte(strings.ReplaceAll(string(text), device.Address, "127.0.0.1:1")), 0o600)
	}
	if err != nil {
		t.Fatal(err)
	}
	here.expect("elsewhere than it was", exit.Partial, inStep)
	close(until)
	timeToAnnounce = time.Millisecond
	here.expect("where it was", exit.Partial, inStep)
	device.Leave()
	here.expect("gone", exit.Refused, "not connected: "+string(wire.Unreached), "connection refused")
	here.asked.Parts[0] = given
	here.expect("gone from where it is said to be", exit.Refused, "not connected: "+string(wire.Unreached), "connection refused")
	here.asked.Parts = []string{protocol.DeviceID{9}.String()}
	here.expect("never there", exit.Refused, "not connected: "+string(wire.Unreached)+": it doesn't announce itself in this network")
}

// A device that is there and doesn't share the folder isn't looked for elsewhere, whether it is where it was or where it announces itself.
func TestADeviceThatIsThereIsNotElsewhere(t *testing.T) {
	hurry(t)
	timeToAnnounce = 20 * time.Second
	here := newWorld(t, 1, map[string]string{"a": "text"})
	device := here.devices[0]
	defer func(had int) { portOfAnnouncements = had }(portOfAnnouncements)
	portOfAnnouncements = freePort(t)
	until := make(chan struct{})
	defer close(until)
	go announce(t, portOfAnnouncements, device.ID, device.Address, until, device.Address)
	here.asked.Parts = []string{device.ID.String()}
	for _, why := range []string{"announced", "where it was"} {
		count := 0
		device.Change(func(state *stranger.State) {
			state.Closes = func(int) bool { count++; state.Hidden["docs"] = count == 1; return false }
		})
		here.expect(why, exit.Refused, "not connected: "+string(wire.NotShared))
		device.Change(func(*stranger.State) {
			if count != 1 {
				t.Errorf("%s: %d connections", why, count)
			}
		})
		here.expect("it shares then", exit.Partial, inStep)
	}
}

// manyListener gives very many connections that end at once, and then waits until it is closed.
type manyListener struct {
	failingListener
	left int
}

func (m *manyListener) Accept() (net.Conn, error) {
	if m.left > 0 {
		m.left--
		return &closing{closed: make(chan struct{})}, nil
	}
	return m.failingListener.Accept()
}

// However many connections come and go, later ones are taken.
func TestVeryManyConnections(t *testing.T) {
	observer, err := wire.Create(filepath.Join(t.TempDir(), "observer"))
	if err != nil {
		t.Fatal(err)
	}
	listener := &manyListener{failingListener{waits: make(chan struct{}), isEnded: make(chan struct{})}, 3 * mostIncoming}
	ended := make(chan struct{})
	go func() {
		(&observing{incoming: listener, observer: observer, isBegun: map[protocol.DeviceID]bool{}}).accept()
		close(ended)
	}()
	select {
	case <-listener.waits:
	case <-time.After(60 * time.Second):
		t.Fatal("it takes no connection any more")
	}
	close(listener.isEnded)
	<-ended
}

// meeting is a run that may meet devices, up to the moment at which it connects to them.
func (w *world) meeting(listen string) *observing {
	observer, err := wire.Open(w.asked.Homes[0])
	if err != nil {
		w.t.Fatal(err)
	}
	asked := w.asked
	asked.Listen = listen
	meeting := &observing{asked: asked, observer: observer, log: io.Discard, progress: io.Discard, news: newNews()}
	for _, device := range w.devices {
		meeting.addresses = append(meeting.addresses, address{id: device.ID, given: device.ID.String()})
	}
	return meeting
}

// isAwaited says whether a look waits for a device.
func (o *observing) isAwaited(id protocol.DeviceID) bool {
	o.mutex.Lock()
	defer o.mutex.Unlock()
	return o.isWaited[id]
}

// Devices connect by themselves where that is asked for: those alone that are awaited at that moment are taken.
func TestDevicesThatConnectByThemselves(t *testing.T) {
	hurry(t)
	here := newWorld(t, 2, map[string]string{"a": "text"})
	meeting := here.meeting("tcp://127.0.0.1:0")
	if err := meeting.listen(); err != nil {
		t.Fatal(err)
	}
	defer meeting.close()
	if err := meeting.open(); err != nil {
		t.Fatal(err)
	}
	at := meeting.incoming.Addr().String()
	if _, err := meeting.connect(0); !errors.Is(err, wire.Unreached) || !strings.HasSuffix(err.Error(), fmt.Sprintf("it didn't connect within %v", timeToConnect)) {
		t.Errorf("%v", err)
	}
	if meeting.isAwaited(here.devices[0].ID) {
		t.Error("a device is awaited that nobody waits for")
	}
	timeToConnect = 20 * time.Second
	for place, device := range here.devices {
		met := make(chan *wire.Connection, 1)
		go func() {
			connection, err := meeting.connect(place)
			if err != nil {
				t.Error(err)
			}
			met <- connection
		}()
		for !meeting.isAwaited(device.ID) {
			time.Sleep(time.Millisecond)
		}
		here.devices[1-place].Connect(t, at) // nobody waits for that one
		device.Connect(t, at)
		if connection := <-met; connection != nil {
			if connection.Device != device.ID || len(connection.Folders) != 1 {
				t.Errorf("%v", connection.Device)
			}
			connection.Close()
		}
		if meeting.isAwaited(device.ID) || len(meeting.awaited[here.devices[1-place].ID]) > 0 {
			t.Errorf("device %d: it is still awaited, or the other one is taken", place)
		}
	}
	second := here.meeting("tcp://" + at)
	if err := second.listen(); err == nil || !strings.HasPrefix(err.Error(), "refused: --listen tcp://"+at+": ") {
		t.Errorf("where another one listens: %v", err)
	}
	quiet := here.meeting("")
	if err := quiet.listen(); err != nil || quiet.incoming != nil || len(quiet.awaited) > 0 {
		t.Errorf("%v", err)
	}
	quiet.close()
}

// Of a device that is awaited one connection is begun at a time, and none once one was taken: both would write its indexes. The end closes what nobody took.
func TestAConnectionTooMany(t *testing.T) {
	here := newWorld(t, 1, map[string]string{"a": "text"})
	meeting, device := here.meeting("tcp://127.0.0.1:0"), here.devices[0]
	meeting.addresses = append(meeting.addresses, address{id: protocol.DeviceID{9}, where: "elsewhere:1"})
	if err := meeting.listen(); err != nil {
		t.Fatal(err)
	}
	if err := meeting.open(); err != nil {
		t.Fatal(err)
	}
	if len(meeting.awaited) != 1 {
		t.Errorf("%d may connect", len(meeting.awaited))
	}
	listener, err := net.Listen("tcp", "127.0.0.1:0")
	if err != nil {
		t.Fatal(err)
	}
	defer listener.Close()
	connect := func() chan struct{} {
		ended := device.Connect(t, listener.Addr().String())
		raw, err := listener.Accept()
		if err != nil {
			t.Fatal(err)
		}
		meeting.takeIncoming(raw)
		return ended
	}
	<-connect() // nobody waits yet
	meeting.await(device.ID, true)
	device.Change(func(state *stranger.State) { state.Hidden["docs"] = true })
	<-connect() // it shares nothing
	device.Change(func(state *stranger.State) { state.Hidden["docs"] = false })
	first := connect()
	<-connect() // one is there
	select {
	case <-first:
		t.Error("the first one is closed")
	default:
	}
	meeting.close()
	<-first
	raw := &closing{closed: make(chan struct{})}
	meeting.takeIncoming(raw)
	<-raw.closed
}

// closing is a connection that ends at once.
type closing struct {
	net.Conn
	closed chan struct{}
}

func (c *closing) Read([]byte) (int, error)         { return 0, io.EOF }
func (c *closing) Write(text []byte) (int, error)   { return len(text), nil }
func (c *closing) SetDeadline(time.Time) error      { return nil }
func (c *closing) SetReadDeadline(time.Time) error  { return nil }
func (c *closing) SetWriteDeadline(time.Time) error { return nil }
func (c *closing) RemoteAddr() net.Addr             { return &net.TCPAddr{} }
func (c *closing) LocalAddr() net.Addr              { return &net.TCPAddr{} }
func (c *closing) Close() error {
	select {
	case <-c.closed:
	default:
		close(c.closed)
	}
	return nil
}
