package wire

import (
	"context"
	"errors"
	"runtime"
	"testing"
	"time"

	"github.com/syncthing/syncthing/lib/protocol"
	entries "syncthing-audit/device"
	"syncthing-audit/message"
)

// An index is taken up to its limits, to the byte and the record, also in several messages, and refused by one more.
func TestAnIndexUpToItsLimits(t *testing.T) {
	text := indexOf("docs", file{name: "a", sequence: 1}, file{name: "b", sequence: 2})
	for _, row := range []struct {
		limits Limits
		err    error
	}{
		{Limits{Index: int64(len(text)), Records: 2, Name: 1}, nil}, {Limits{Index: int64(len(text)) - 1, Records: 2, Name: 1}, TooLarge}, {Limits{Index: 1000, Records: 1, Name: 1}, TooManyRecords},
	} {
		limits, spent := row.limits, new(spent)
		taker := &taker{folder: "docs", limits: &limits, spent: spent, index: NewIndex(42)}
		if err := taker.take(text, false); !errors.Is(err, row.err) {
			t.Errorf("%+v: %v", row.limits, err)
		}
		if err := taker.take(text, false); err == nil {
			t.Errorf("%+v: it is taken twice", row.limits)
		}
	}
}

// What isn't read of a file isn't counted as read.
func TestHowMuchIsRead(t *testing.T) {
	for _, found := range []Found{{}, {Size: 5}, {Size: 5, Unread: 2}, {Size: 5, Unread: 5}} {
		if read := found.Read(); read+found.Unread != found.Size {
			t.Errorf("%+v: %d bytes", found, read)
		}
	}
}

// Nothing of a look goes on once it has ended, whether who takes what is found ended it or the device did; nor of a connection.
func TestNothingGoesOnBehindALook(t *testing.T) {
	before := runtime.NumGoroutine()
	looker := &looker{t: t, observer: newObserver(t)}
	looker.connect()
	index, why := NewIndex(42), errors.New("enough")
	for number := 0; number < 3*mostRequests; number++ {
		if err := take(index, file{name: string(rune('a' + number)), data: "text", sequence: uint64(number + 1)}); err != nil {
			t.Fatal(err)
		}
	}
	taken := 0
	err := looker.connection.Folders[0].Bytes(context.Background(), index, all, func(entries.Entry, Found) error { taken++; return why })
	if err != why || taken != 1 {
		t.Errorf("%d are taken, %v", taken, err)
	}
	looker.connection.Close()
	looker.connection.Folders[0].taker.index.Close()
	looker.device.listener.Close()
	index.Close()
	for tries := 0; runtime.NumGoroutine() > before; tries++ {
		if tries == 3000 {
			t.Fatalf("%d go on, and %d did before", runtime.NumGoroutine(), before)
		}
		time.Sleep(10 * time.Millisecond)
	}
}

// A device is told with its sequence, which is 0 where none is told; one without an id is refused, as nothing else names it.
func TestSequencesOfDevices(t *testing.T) {
	for text, due := range map[string]int64{"": 0, "\x30\x07": 7, "\x30\x00": 0} {
		id := protocol.DeviceID{1}
		if sharing, _, err := sharingOf(append(message.AppendText(nil, deviceID, id[:]), text...)); err != nil || sharing.Sequence != due || sharing.Device != id {
			t.Errorf("%q: %+v, %v", text, sharing, err)
		}
		for _, none := range [][]byte{nil, make([]byte, 32)} {
			if _, _, err := sharingOf(append(message.AppendText(nil, deviceID, none), text...)); err == nil || err.Error() != "a device without an id" {
				t.Errorf("%q, id %x: %v", text, none, err)
			}
		}
	}
}
