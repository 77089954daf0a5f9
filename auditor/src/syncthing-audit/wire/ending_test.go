package wire

import (
	"context"
	"crypto/tls"
	"errors"
	"net"
	"sync/atomic"
	"testing"
	"time"

	"github.com/syncthing/syncthing/lib/protocol"
	"syncthing-audit/request"
)

// soon fails a test where something that is to end doesn't.
func soon(t *testing.T, why string, ended <-chan struct{}) {
	t.Helper()
	select {
	case <-ended:
	case <-time.After(30 * time.Second):
		t.Fatalf("%s: it goes on", why)
	}
}

// Once a connection is closed nothing of it goes on, and the device was told so.
func TestAConnectionIsClosed(t *testing.T) {
	observer := newObserver(t)
	for tries := 0; tries < 10; tries++ {
		told := make(chan []byte, 1)
		device := newFake(t, serving(observer, func(f *fake) {
			what, text, err := readFrame(f.stream, 1<<20, func() {})
			if err != nil || what != kindClose {
				t.Errorf("a message of kind %d: %v", what, err)
			}
			told <- text
			f.serve()
		}))
		connection, err := dial(observer, device, nil, short())
		if err != nil {
			t.Fatal(err)
		}
		connection.Close()
		select {
		case <-connection.ended:
		default:
			t.Error("it is read still")
		}
		if text := <-told; string(text) != "\x0a\x10the look is over" {
			t.Errorf("%q", text)
		}
	}
}

// A connection whose device says what can't be read, or nothing, ends by itself, for that reason.
func TestAConnectionEndsByItself(t *testing.T) {
	observer, limits := newObserver(t), short()
	limits.Handshake, limits.Frame, limits.Silence = 2*time.Minute, 2*time.Minute, 200*time.Millisecond
	for why, row := range map[string]struct {
		limits Limits
		then   func(*fake)
		want   Refusal
	}{
		"what can't be read": {short(), func(f *fake) { f.write(kindIndexUpdate, []byte{0xff}, false); f.serve() }, BadMessage}, "nothing": {limits, (*fake).serve, TooLate},
	} {
		device := newFake(t, serving(observer, row.then))
		connection, err := dial(observer, device, nil, row.limits)
		if err != nil {
			t.Fatal(why, err)
		}
		soon(t, why, connection.ended)
		soon(t, why, device.over)
		if err := connection.ending(); !errors.Is(err, row.want) {
			t.Errorf("%s: %v", why, err)
		}
		connection.Close()
	}
}

// A connection that is closed before it begins, or between TLS and the Hello, is told as that.
func TestAConnectionThatIsClosedEarly(t *testing.T) {
	observer := newObserver(t)
	device := newFake(t, func(*fake) {})
	wanted := func(raw net.Conn) Wanted {
		return func(protocol.DeviceID) (Look, bool) { raw.Close(); return Look{}, true }
	}
	for want, isClosed := range map[Refusal]bool{Unreached: true, Closed: false} {
		raw, other := net.Pipe()
		if isClosed {
			raw.Close()
		}
		done := make(chan struct{})
		go func() {
			defer close(done)
			client := tls.Client(other, &tls.Config{Certificates: []tls.Certificate{device.certificate}, NextProtos: []string{"bep/1.0"}, InsecureSkipVerify: true})
			_ = client.Handshake()
			_, _ = client.Read(make([]byte, 1))
		}()
		if _, err := observer.Accept(context.Background(), raw, short(), wanted(raw)); !errors.Is(err, want) {
			t.Errorf("%v in place of %v", err, want)
		}
		other.Close()
		<-done
	}
}

// A request that can't be sent is answered by nobody.
func TestARequestThatCannotBeSent(t *testing.T) {
	raw, other := net.Pipe()
	raw.Close()
	other.Close()
	connection := listener(short())
	connection.stream = tls.Client(raw, &tls.Config{})
	if said, err := connection.ask(context.Background(), "docs", request.ForBlock("a", 0, 0)); !errors.Is(err, Closed) || said.data != nil {
		t.Errorf("%+v, %v", said, err)
	}
}

// tickets counts what a device is given by which the observer would know it again.
type tickets struct{ count atomic.Int64 }

func (c *tickets) Get(string) (*tls.ClientSessionState, bool) { return nil, false }
func (c *tickets) Put(string, *tls.ClientSessionState)        { c.count.Add(1) }

// TLS begins anew each time, as Syncthing has it: a device shows its certificate always.
func TestTLSBeginsAnew(t *testing.T) {
	observer, certificate := newObserver(t), newFake(t, func(*fake) {}).certificate
	raw, other := net.Pipe()
	defer raw.Close()
	defer other.Close()
	given, served := &tickets{}, make(chan error, 1)
	go func() { served <- tls.Server(raw, observer.tls()).Handshake() }()
	client := tls.Client(other, &tls.Config{Certificates: []tls.Certificate{certificate}, InsecureSkipVerify: true, ServerName: "observer", MaxVersion: tls.VersionTLS12, ClientSessionCache: given})
	if err := client.Handshake(); err != nil || <-served != nil {
		t.Fatal(err)
	}
	if count := given.count.Load(); count != 0 {
		t.Errorf("%d tickets", count)
	}
}
