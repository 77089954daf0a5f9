package history

import (
	"errors"
	"io"
	"testing"
	"time"

	"syncthing-audit/choice"
)

// newerOf has a history read a device's part of some day, and gives what it had read after that part was made.
func (h *History) newerOf(t *testing.T, day int, of device) string {
	stream := of.partOf(0, choice.Names{})
	stream.head.Made = night(day)
	watch, err := h.Watch()
	if err != nil {
		t.Fatal(err)
	}
	tee := h.Tee(stream, watch)
	for {
		if _, err := tee.Next(); errors.Is(err, io.EOF) {
			break
		} else if err != nil {
			t.Fatal(err)
		}
	}
	if err := tee.End(); err != nil {
		t.Fatal(err)
	}
	if newer, is := tee.Newer()["docs"]; is {
		return newer.Format("2006-01-02")
	}
	return ""
}

// A part that is older than one that was read before is seen, whatever names it has. The same one again is no older, and one of a time that is still to
// come keeps none out.
func TestAnOlderPart(t *testing.T) {
	for _, one := range []struct {
		why    string
		before device
		made   device
	}{
		{"the same names", device{"f": {bytes: 'a'}}, device{"f": {bytes: 'a'}}},
		{"no names", device{}, device{}},
		{"other names", device{"f": {bytes: 'a'}}, device{"g": {bytes: 'a'}}},
		{"what wasn't read", device{"f": {unread: true}}, device{"f": {unread: true}}},
	} {
		history := opened(t)
		for _, step := range []struct {
			day   int
			newer string
		}{{1, ""}, {3, ""}, {3, ""}, {2, "2026-01-04"}, {2, "2026-01-04"}, {4, ""}} {
			if newer := history.newerOf(t, step.day, one.made); newer != step.newer {
				t.Errorf("%s, day %d: %q in place of %q", one.why, step.day, newer, step.newer)
			}
		}
		history.newerOf(t, 20000, one.before)
		history.now = func() time.Time { return night(5) }
		if newer := history.newerOf(t, 5, one.made); newer != "" {
			t.Errorf("%s, behind a time that is still to come: %q", one.why, newer)
		}
	}
	history := opened(t)
	history.mustTake(t, 3, device{"f": {bytes: 'a'}})
	history.db.Delete(keyOfPart("docs", device{}.partOf(0, choice.Names{}).head.Number()), nil)
	if newer := history.newerOf(t, 2, device{"f": {bytes: 'a'}}); newer != "2026-01-04" {
		t.Errorf("a history of an earlier program: %q", newer)
	}
}
