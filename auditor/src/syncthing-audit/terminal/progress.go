package terminal

import (
	"io"
	"time"

	"syncthing-audit/outside"
)

const (
	// timeBetween is how often the line is drawn.
	timeBetween = 500 * time.Millisecond
	// timeBetweenSteps is how often a line of its own is told to another program.
	timeBetweenSteps = time.Second
)

// LineOfStep is how 'part' says on standard error how many bytes it has hashed, of how many that are recorded; 0 where that isn't known.
const LineOfStep = "syncthing-audit: hashed %d of %d bytes"

// Start begins to show a line where the log is a terminal; what it gives ends that.
func Start(log io.Writer, line func(now time.Time) string) func() {
	to, is := log.(*screen)
	if !is {
		return func() {}
	}
	return startTicks(timeBetween, func(ticks <-chan time.Time, stopped <-chan struct{}) { showLines(to, line, ticks, stopped) })
}

// startTicks has something go on at each tick; what it gives ends that, and waits for its end.
func startTicks(between time.Duration, goOn func(ticks <-chan time.Time, stopped <-chan struct{})) func() {
	ticks, stopped, ended := time.NewTicker(between), make(chan struct{}), make(chan struct{})
	go func() {
		defer close(ended)
		goOn(ticks.C, stopped)
	}()
	return func() {
		ticks.Stop()
		close(stopped)
		<-ended
	}
}

// showLines shows a line anew at each tick, and takes it away at the end.
func showLines(to *screen, line func(now time.Time) string, ticks <-chan time.Time, stopped <-chan struct{}) {
	for {
		select {
		case <-stopped:
			to.show("")
			return
		case now := <-ticks:
			to.show(line(now))
		}
	}
}

// StartSteps begins to tell another program how much is done; what it gives ends that.
func StartSteps(log io.Writer, done func() int64, whole int64) func() {
	return startTicks(timeBetweenSteps, func(ticks <-chan time.Time, stopped <-chan struct{}) { tellSteps(log, done, whole, ticks, stopped) })
}

// tellSteps tells at each tick how much is hashed, and once more at the end. While nothing is hashed it is silent, so that whoever waits sees a disk that
// gives nothing any more.
func tellSteps(log io.Writer, done func() int64, whole int64, ticks <-chan time.Time, stopped <-chan struct{}) {
	told := int64(-1)
	tell := func() {
		if now := done(); now != told {
			told = now
			outside.Printf(log, LineOfStep+"\n", told, whole)
		}
	}
	tell()
	for {
		select {
		case <-stopped:
			tell()
			return
		case <-ticks:
			tell()
		}
	}
}
