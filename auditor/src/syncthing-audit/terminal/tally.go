package terminal

import (
	"fmt"
	"strings"
	"sync"
	"time"

	"syncthing-audit/outside"
)

// Tally is how far the first looks are at all places of a run.
type Tally struct {
	mutex  sync.Mutex
	places []tallied // those that are looked at
}

// tallied is how far the look at a place is.
type tallied struct {
	called  string
	isKnown bool // whether it has told
	isOver  bool
	done    int64
	whole   int64 // 0 where that isn't known
	pace    pace
}

// Add adds a place, and gives its number.
func (t *Tally) Add(called string) int {
	t.mutex.Lock()
	defer t.mutex.Unlock()
	t.places = append(t.places, tallied{called: outside.Escaped(called)})
	return len(t.places) - 1
}

// Take takes a line that a place told, and says whether it is of how far its look is.
func (t *Tally) Take(at int, line string) bool {
	var done, whole int64
	if count, err := fmt.Sscanf(line, LineOfStep, &done, &whole); count != 2 || err != nil || line != fmt.Sprintf(LineOfStep, done, whole) || !isAmount(done) || !isAmount(whole) {
		return false
	}
	t.mutex.Lock()
	defer t.mutex.Unlock()
	place := &t.places[at]
	place.isKnown, place.done, place.whole = true, done, whole
	return true
}

// isAmount says whether a device may have so many bytes: another machine chooses what it tells.
func isAmount(bytes int64) bool { return bytes >= 0 && bytes < 1<<55 }

// End says that the look at a place is over. What it hashed is all that there was.
func (t *Tally) End(at int) {
	t.mutex.Lock()
	defer t.mutex.Unlock()
	place := &t.places[at]
	place.isOver, place.whole = true, place.done
}

// Line says how far all of them are: how many bytes are hashed, how long the slowest one takes yet, and of which places that isn't known.
func (t *Tally) Line(now time.Time) string {
	t.mutex.Lock()
	defer t.mutex.Unlock()
	known, done, whole, isWhole := 0, int64(0), int64(0), true
	longest, slowest, unknown := time.Duration(-1), "", []string{}
	for at := range t.places {
		place := &t.places[at]
		if !place.isKnown {
			if !place.isOver {
				unknown = append(unknown, place.called)
			}
			continue
		}
		known++
		place.pace.add(now, place.done)
		done, whole = done+place.done, whole+place.whole
		isWhole = isWhole && (place.whole >= place.done && (place.whole > 0 || place.isOver))
		if left, is := place.pace.left(place.whole - place.done); is && left > longest {
			longest, slowest = left, place.called
		}
	}
	told := []string{}
	if known > 0 {
		told = append(told, hashedAt(done, whole, isWhole, longest, slowest, len(t.places) > 1))
	}
	if len(unknown) > 0 {
		told = append(told, "not known how far: "+strings.Join(unknown, ", "))
	}
	return strings.Join(told, "; ")
}

// hashedAt says how many bytes are hashed in all, and how long the slowest place takes.
func hashedAt(done, whole int64, isWhole bool, longest time.Duration, slowest string, hasName bool) string {
	if !isWhole {
		whole = 0
	}
	line := "hashed " + amounts(done, whole)
	if longest >= 0 {
		line += ", " + leftOf(longest)
		if hasName {
			line += " on " + slowest
		}
	}
	return line
}
