package history

import (
	"testing"
	"time"

	"syncthing-audit/choice"
)

// A part that says it was made in a time that is still to come keeps no later reading out, and neither does a history that has such a reading.
func TestAClockThatIsAhead(t *testing.T) {
	history := opened(t)
	devices := func(bytes byte) []device { return []device{{"a": {bytes: bytes}}, {"a": {bytes: bytes}}} }
	history.now = func() time.Time { return night(1) }
	history.audit(t, 20000, devices('a'), choice.Names{}, "")
	history.now = func() time.Time { return night(2) }
	if since := history.audit(t, 2, devices('x'), choice.Names{}, ""); since.Count != 1 {
		t.Errorf("%+v", since)
	}
	history.mustTake(t, 30000, devices('x')...) // as an earlier program kept it
	if since := history.audit(t, 2, devices('y'), choice.Names{}, ""); since.Count != 1 || !since.Changed[0].Since.Equal(night(2)) {
		t.Errorf("%+v", since)
	}
}
