package wire

import (
	"context"
	"crypto/tls"
	"errors"
	"net"
	"strings"
	"testing"
	"time"

	"github.com/syncthing/syncthing/lib/protocol"
	entries "syncthing-audit/device"
	"syncthing-audit/message"
	"syncthing-audit/request"
)

// serving is a device of one file that then does what a test has it do.
func serving(observer *Observer, then func(*fake)) func(*fake) {
	return func(f *fake) {
		f.hello()
		f.write(kindClusterConfig, f.config("docs", observer.ID, 42, 1), false)
		readFrame(f.stream, 1<<20, func() {})
		f.write(kindIndex, indexOf("docs", file{name: "a", data: "text", sequence: 1}), false)
		then(f)
	}
}

// answering answers each request with this, in place of what is asked for.
func answering(answer func(id uint64) []byte) func(*fake) {
	return func(f *fake) {
		for {
			what, text, err := readFrame(f.stream, 1<<20, func() {})
			if err != nil {
				return
			}
			if what == kindRequest {
				var id uint64
				_ = message.Each(text, func(field message.Field) error {
					if field.Number == request.FieldOfID {
						id = field.Value
					}
					return nil
				})
				f.write(kindResponse, answer(id), false)
			}
		}
	}
}

// responseOf is an answer to the request of this number.
func responseOf(id, code uint64, data string) []byte {
	return message.AppendNumber(message.AppendText(message.AppendNumber(nil, responseID, id), responseData, []byte(data)), responseCode, code)
}

// A device that ends a connection behind its Hello may not know the observer: whose id it is that it lacks is told.
func TestADeviceThatDoesNotKnowTheObserver(t *testing.T) {
	observer := newObserver(t)
	err := refusalOf(observer, newFake(t, (*fake).hello), short())
	if due := "it may not know the observer (" + observer.ID.String()[:7] + ")"; !errors.Is(err, Closed) || !strings.Contains(err.Error(), due) {
		t.Error(err)
	}
}

// What a device answers amiss to a request ends the look at its bytes, and is told as what it is. An answer of a code alone has no length.
func TestAnswersThatAreAmiss(t *testing.T) {
	observer := newObserver(t)
	for why, row := range map[string]struct {
		then func(*fake)
		want error // nothing where the file is found to be missing
	}{
		"too short":            {answering(func(id uint64) []byte { return responseOf(id, codeNone, "") }), WrongLength},
		"too long":             {answering(func(id uint64) []byte { return responseOf(id, codeNone, "ab") }), WrongLength},
		"a code with no bytes": {answering(func(id uint64) []byte { return responseOf(id, codeNoSuchFile, "") }), nil},
		"a code with bytes":    {answering(func(id uint64) []byte { return responseOf(id, codeNoSuchFile, "abc") }), nil},
		"no message":           {answering(func(uint64) []byte { return []byte{0xff} }), BadMessage},
		"nothing":              {answering(func(uint64) []byte { return nil }), TooLate},
		"another request's":    {answering(func(id uint64) []byte { return responseOf(id+1, codeNone, "a") }), TooLate},
		"an end":               {func(f *fake) { readFrame(f.stream, 1<<20, func() {}); f.write(kindClose, nil, false) }, Closed},
		"no request": {func(f *fake) {
			readFrame(f.stream, 1<<20, func() {})
			f.write(kindRequest, []byte{0xff}, false)
			f.serve()
		}, BadMessage},
		"no index": {func(f *fake) {
			readFrame(f.stream, 1<<20, func() {})
			f.write(kindIndexUpdate, []byte{0xff}, false)
			f.serve()
		}, BadMessage},
	} {
		limits := short()
		if row.want == TooLate {
			limits.Answer = 300 * time.Millisecond
		}
		connection, err := dial(observer, newFake(t, serving(observer, row.then)), nil, limits)
		if err != nil {
			t.Fatal(why, err)
		}
		index, err := connection.Folders[0].Index(context.Background())
		if err != nil {
			t.Fatal(why, err)
		}
		state := State("")
		err = connection.Folders[0].Bytes(context.Background(), index, all, func(_ entries.Entry, found Found) error { state = found.State; return nil })
		if !errors.Is(err, row.want) || (err == nil) != (state == Missing) {
			t.Errorf("%s: %s, %v in place of %v", why, state, err, row.want)
		}
		if connection.mutex.Lock(); len(connection.waiting) != 0 {
			t.Errorf("%s: %d requests wait still", why, len(connection.waiting))
		}
		connection.mutex.Unlock()
		connection.Close()
		if err := connection.send(kindPing, nil); !errors.Is(err, Closed) {
			t.Errorf("%s: a message is sent behind the end: %v", why, err)
		}
		if _, err := connection.ask(context.Background(), "docs", request.ForBlock("a", 0, 1)); err == nil || err != connection.ending() {
			t.Errorf("%s: a request is sent behind the end: %v", why, err)
		}
	}
}

// Who asks for an index or for bytes may stop, and an error of who takes what is found stops it, too.
func TestWhoAsksMayStop(t *testing.T) {
	observer := newObserver(t)
	device := newFake(t, serving(observer, func(f *fake) { f.disk = map[string]string{"a": "text"}; f.serve() }))
	connection, err := dial(observer, device, nil, short())
	if err != nil {
		t.Fatal(err)
	}
	defer connection.Close()
	folder, why := connection.Folders[0], errors.New("enough")
	index, err := folder.Index(context.Background())
	if err != nil {
		t.Fatal(err)
	}
	none := func(entries.Entry, Found) error { t.Error("it is taken"); return nil }
	if err := folder.Bytes(context.Background(), index, all, func(entries.Entry, Found) error { return why }); err != why {
		t.Errorf("%v", err)
	}
	if err := folder.Bytes(context.Background(), index, func(entries.Entry) (bool, error) { return false, why }, none); err != why {
		t.Errorf("%v", err)
	}
	if err := folder.Bytes(context.Background(), index, func(entries.Entry) (bool, error) { return false, nil }, none); err != nil {
		t.Errorf("%v", err)
	}
	over, cancel := context.WithCancel(context.Background())
	cancel()
	for place := 0; place < 20; place++ { // which of the two comes first is open
		if err := folder.Bytes(over, index, all, func(entries.Entry, Found) error { return nil }); !errors.Is(err, context.Canceled) && !errors.Is(err, TooLate) {
			t.Errorf("%v", err)
		}
	}
	folder.Devices[0].Sequence = 9
	if _, err := folder.Index(over); !errors.Is(err, TooLate) || !strings.Contains(err.Error(), context.Canceled.Error()) {
		t.Errorf("%v", err)
	}
}

// A device that hears nothing else hears pings.
func TestPings(t *testing.T) {
	observer, limits := newObserver(t), short()
	limits.Ping = 20 * time.Millisecond
	device, began := newFake(t, serving(observer, (*fake).serve)), time.Now()
	connection, err := dial(observer, device, nil, limits)
	if err != nil {
		t.Fatal(err)
	}
	defer connection.Close()
	pings := func() int {
		device.mutex.Lock()
		defer device.mutex.Unlock()
		for _, what := range device.heard {
			if what != kindPing {
				t.Fatalf("%v", device.heard)
			}
		}
		return len(device.heard)
	}
	for until := began.Add(20 * time.Second); pings() < 5 && time.Now().Before(until); {
		time.Sleep(5 * time.Millisecond)
	}
	if count, most := pings(), time.Since(began)/limits.Ping; count < 5 || count > int(most) {
		t.Errorf("%d pings in %v", count, time.Since(began))
	}
}

// A device may be the one that connects. It is taken if it is wanted, and no other one is.
func TestADeviceThatConnects(t *testing.T) {
	observer := newObserver(t)
	for _, isWanted := range []bool{true, false} {
		listener, err := net.Listen("tcp", "127.0.0.1:0")
		if err != nil {
			t.Fatal(err)
		}
		device := newFake(t, nil)
		done := make(chan struct{})
		go func() {
			defer close(done)
			raw, err := net.Dial("tcp", listener.Addr().String())
			if err != nil {
				return
			}
			defer raw.Close()
			device.stream = tls.Client(raw, &tls.Config{Certificates: []tls.Certificate{device.certificate}, NextProtos: []string{"bep/1.0"}, InsecureSkipVerify: true})
			serving(observer, (*fake).serve)(device)
		}()
		raw, err := listener.Accept()
		if err != nil {
			t.Fatal(err)
		}
		connection, err := observer.Accept(context.Background(), raw, short(), func(id protocol.DeviceID) (Look, bool) { return Look{}, isWanted && id == device.id })
		if isWanted {
			if err != nil {
				t.Fatal(err)
			}
			if index, err := connection.Folders[0].Index(context.Background()); err != nil || index.Highest != 1 || connection.Device != device.id || connection.Hello.Name != "fake" {
				t.Errorf("%v, %v", index, err)
			}
			connection.Close()
		} else if !errors.Is(err, AnotherDevice) {
			t.Errorf("%v", err)
		}
		raw.Close()
		<-done
		listener.Close()
		device.listener.Close()
	}
}

// What isn't there, and what shows more than one certificate, is no device.
func TestWhatIsNoDevice(t *testing.T) {
	observer := newObserver(t)
	device := newFake(t, func(f *fake) {
		f.certificate.Certificate = append(f.certificate.Certificate, f.certificate.Certificate[0])
		f.stream = tls.Server(f.stream.NetConn(), &tls.Config{Certificates: []tls.Certificate{f.certificate}, InsecureSkipVerify: true})
		f.hello()
	})
	if _, err := dial(observer, device, nil, short()); !errors.Is(err, NotSyncthing) || !strings.HasSuffix(err.Error(), "it shows 2 certificates") {
		t.Error(err)
	}
	plain := newFake(t, func(f *fake) { f.stream.NetConn().Write([]byte("SSH-2.0-OpenSSH_9.2\r\n")) })
	if _, err := dial(observer, plain, nil, short()); !errors.Is(err, NotSyncthing) {
		t.Error(err)
	}
	gone := newFake(t, func(*fake) {})
	gone.listener.Close()
	if _, err := dial(observer, gone, nil, short()); !errors.Is(err, Unreached) {
		t.Error(err)
	}
}
