package wire

import (
	"bytes"
	"context"
	"errors"
	"fmt"
	"strings"
	"testing"

	entries "syncthing-audit/device"
	"syncthing-audit/message"
)

// asked is a request as a device hears it.
type asked struct{ offset, size int64 }

// stand is what is recorded of a name, and what stands there.
type stand struct {
	recorded, disk string
	isMissing      bool
	isDeleted      bool // as recorded
}

// stands are kinds of what may stand where something is recorded.
var stands = map[string]stand{
	"same": {recorded: "text", disk: "text"}, "empty": {}, "grown": {recorded: "text", disk: "text and more"}, "cut": {recorded: "text", disk: "te"}, "emptied": {recorded: "text"},
	"filled": {disk: "text"}, "missing": {recorded: "text", isMissing: true}, "deleted": {isMissing: true, isDeleted: true}, "deleted and there": {disk: "text", isDeleted: true},
	"two blocks": {recorded: strings.Repeat("x", block+5), disk: strings.Repeat("x", block+5)},
}

// looker looks at one name after another, at a device that may do something else at each request.
type looker struct {
	t          *testing.T
	observer   *Observer
	device     *fake
	connection *Connection // nothing once it has ended
}

// connect connects to a device, where no connection is left.
func (l *looker) connect() {
	if l.connection != nil {
		return
	}
	l.device = newFake(l.t, serving(l.observer, (*fake).serve))
	var err error
	if l.connection, err = dial(l.observer, l.device, nil, short()); err != nil {
		l.t.Fatal(err)
	}
	l.t.Cleanup(l.connection.Close)
}

// lookAt looks at a name where this stands, and gives the requests, too.
func (l *looker) lookAt(at stand, change func(f *fake, request int) (code uint64)) (Found, []asked, error) {
	l.t.Helper()
	l.connect()
	requests := []asked{}
	l.device.mutex.Lock()
	l.device.disk, l.device.recorded = map[string]string{}, map[string]string{"a": at.recorded}
	if !at.isMissing {
		l.device.disk["a"] = at.disk
	}
	l.device.hears = func(offset, size int64) (code uint64) {
		requests = append(requests, asked{offset, size})
		return change(l.device, len(requests))
	}
	l.device.mutex.Unlock()
	index := NewIndex(42)
	if err := take(index, file{name: "a", data: at.recorded, sequence: 1, deleted: at.isDeleted}); err != nil {
		l.t.Fatal(err)
	}
	var found Found
	err := l.connection.Folders[0].Bytes(context.Background(), index, all, func(_ entries.Entry, content Found) error { found = content; return nil })
	if err != nil {
		l.connection = nil
	}
	l.device.mutex.Lock()
	defer l.device.mutex.Unlock()
	return found, requests, err
}

// Wherever a connection ends, a look ends with it: nothing is found then. And whichever request is refused, no file is found to be as it was recorded.
func TestEachRequestThatFails(t *testing.T) {
	looker := &looker{t: t, observer: newObserver(t)}
	for why, stand := range stands {
		whole, requests, err := looker.lookAt(stand, func(*fake, int) uint64 { return codeNone })
		if err != nil || len(requests) == 0 {
			t.Fatal(why, err)
		}
		for number := 1; number <= len(requests); number++ {
			found, _, err := looker.lookAt(stand, func(f *fake, request int) uint64 {
				if request == number {
					f.stream.NetConn().Close()
				}
				return codeNone
			})
			if !errors.Is(err, Closed) || found.State != "" {
				t.Errorf("%s, ended at request %d of %d: %s, %v", why, number, len(requests), found.State, err)
			}
			for code, due := range map[uint64]State{codeInvalidFile: Ignored, 1: Failed} {
				found, _, err := looker.lookAt(stand, func(_ *fake, request int) uint64 {
					if request == number {
						return code
					}
					return codeNone
				})
				isLast := found.State == NotKnown && whole.State != Missing && number > 1 // the length once more
				if err != nil || found.State != due && !isLast || found.Blocks != nil || found.Size != 0 {
					t.Errorf("%s, request %d of %d answered with %d: %+v, %v", why, number, len(requests), code, found, err)
				}
			}
		}
	}
}

// A look takes few requests: of a file as it is recorded for its bytes and twice for its length, and of another one a few for each bit of how much its length
// differs. Whether there is a file is asked by its first byte.
func TestHowManyRequestsALookTakes(t *testing.T) {
	looker := &looker{t: t, observer: newObserver(t)}
	last := func(length int64) asked { return asked{length, 1} }
	for why, row := range map[string]struct {
		first []asked
		most  int
	}{
		"same": {[]asked{last(4), last(3), {0, 4}, last(4), last(3)}, 5}, "empty": {[]asked{last(0), last(0)}, 2}, "missing": {[]asked{last(4), last(1 << 50), {0, 1}}, 3},
		"deleted": {[]asked{{0, 1}}, 1}, "deleted and there": {[]asked{{0, 1}, last(0), last(1 << 50), last(1)}, 12}, "grown": {[]asked{last(4), last(1 << 50), last(5), last(9)}, 16},
		"cut": {[]asked{last(4), last(3), last(1)}, 10}, "emptied": {[]asked{last(4), last(3)}, 10}, "filled": {[]asked{last(0), last(1 << 50), last(1)}, 12},
		"two blocks": {[]asked{last(block + 5), last(block + 4)}, 6},
	} {
		_, requests, err := looker.lookAt(stands[why], func(*fake, int) uint64 { return codeNone })
		if err != nil || len(requests) > row.most || len(requests) < len(row.first) || fmt.Sprint(requests[:len(row.first)]) != fmt.Sprint(row.first) {
			t.Errorf("%s: %d requests, %v, not %v: %v", why, len(requests), requests, row.first, err)
		}
	}
	long := stand{recorded: "text", disk: strings.Repeat("long", 1<<20)}
	if found, requests, err := looker.lookAt(long, func(*fake, int) uint64 { return codeNone }); err != nil || found.Size != 4<<20 || len(requests) > 2*(12+24)+32 {
		t.Errorf("%d requests: %d bytes, %v", len(requests), found.Size, err)
	}
}

// A token of no letters is no password's.
func TestATokenOfNothing(t *testing.T) {
	for text, is := range map[string]bool{"": false, "\x52\x00": false, "\x52\x01x": true} {
		if sharing, token, err := sharingOf(append(message.AppendText(nil, deviceID, bytes.Repeat([]byte{1}, 32)), text...)); err != nil || sharing.Encrypted != is || (len(token) > 0) != is {
			t.Errorf("%q: %+v, %q, %v", text, sharing, token, err)
		}
	}
}
