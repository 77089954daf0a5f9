package observing

import (
	"errors"
	"fmt"
	"strings"
	"testing"
	"time"

	"github.com/syncthing/syncthing/lib/protocol"
	"syncthing-audit/observe"
	"syncthing-audit/wire"
)

// A device that fails at each look is told once, and anew where it fails at another step, and once more when it is back. The answers say how often it
// failed.
func TestNewsAlone(t *testing.T) {
	now := time.Unix(0, 0)
	told := newNews()
	told.now = func() time.Time { now = now.Add(time.Hour); return now }
	var log strings.Builder
	look := func(what string, why error) string {
		log.Reset()
		looking := &observing{addresses: []address{{protocol.DeviceID{1}, "", "laptop", false}}, failed: map[int]error{}, devices: make([]*observe.Device, 1), log: &log, news: told}
		if what == "" {
			looking.devices[0] = &observe.Device{}
			looking.tellBack()
			return log.String()
		}
		looking.fail(0, what, why)
		left := looking.left()
		looking.tellBack()
		return log.String() + left[0].Why
	}
	const since = "looks since 1970-01-01 01:00:00 UTC"
	none := errors.New("no answer")
	for at, row := range [][2]string{
		{"not connected", "syncthing-audit: laptop: not connected: no answer\nno answer"},
		{"not connected", "no answer; it failed so at 2 " + since},
		{"first look", "syncthing-audit: laptop: first look: no answer\nno answer; it failed so at 3 " + since},
		{"first look", "no answer; it failed so at 4 " + since},
		{"", "syncthing-audit: laptop: it is back, after it failed at 4 " + since + "\n"},
		{"", ""},
		{"not connected", "syncthing-audit: laptop: not connected: no answer\nno answer"},
		{"", "syncthing-audit: laptop: it is back, after it failed at 1 look since 1970-01-01 02:00:00 UTC\n"},
	} {
		if said := look(row[0], none); said != row[1] {
			t.Errorf("%d: %q, not %q", at, said, row[1])
		}
	}
	for at, row := range []struct {
		why   error
		isNew bool
	}{
		{fmt.Errorf("%w: dial from port 40001", wire.Unreached), true}, {fmt.Errorf("%w: no route", wire.Unreached), false}, {fmt.Errorf("%w: X", wire.AnotherDevice), true},
		{errors.New("read from port 40001: reset"), true}, {errors.New("read from port 532: reset"), false}, {errors.New("another certificate"), true},
	} {
		if said := look("not connected", row.why); strings.HasPrefix(said, "syncthing-audit: laptop: not connected: ") != row.isNew {
			t.Errorf("%d: %q", at, said)
		}
	}
}
