package observing

import (
	"errors"
	"io"
	"strings"
	"time"

	"syncthing-audit/commandline"
	"syncthing-audit/exit"
	"syncthing-audit/outside"
)

// clock is what a command goes by that goes on.
type clock struct {
	now  func() time.Time
	wait func(until time.Time) bool // whether to go on then
}

// systemClock waits until somebody ends the program. It looks at the time again and again: a machine that slept is behind.
var systemClock = clock{now: time.Now, wait: func(until time.Time) bool {
	for left := time.Until(until); left > 0; left = time.Until(until) {
		if left > mostAtOnce {
			left = mostAtOnce
		}
		time.Sleep(left)
	}
	return true
}}

// mostAtOnce is for how long it sleeps at most.
const mostAtOnce = time.Minute

// repeat looks so often until the clock says that it is over, and gives the last status. A look that takes longer than that is followed by the next one at
// once, and what it missed isn't made up for. A look that fails is told, and the next one is made all the same; but for one that would fail each time.
func (c clock) repeat(every time.Duration, look func() (int, error), log io.Writer) (int, error) {
	for due := c.now(); ; {
		outside.Printf(log, "syncthing-audit: a look at %s\n", c.now().UTC().Format("2006-01-02 15:04:05 UTC"))
		status, err := look()
		var usage *commandline.WrongUsage
		if errors.As(err, &usage) {
			return status, err
		}
		if err != nil {
			status = exit.Of(err, &strings.Builder{}, log)
		}
		if due = due.Add(every); due.Before(c.now()) {
			due = c.now()
		}
		if !c.wait(due) {
			return status, nil
		}
	}
}
