package terminal

import (
	"fmt"
	"time"

	"syncthing-audit/amount"
)

const (
	// windowOfPace is of how long the rate is by which the time left is told: a disk's rate is another one for small files than for large ones.
	windowOfPace = time.Minute
	// shortestPace is how long something is watched at least before its rate is told.
	shortestPace = 2 * time.Second
)

// moment is how much was done at a time.
type moment struct {
	at   time.Time
	done int64
}

// pace is how fast something went in the last minute.
type pace struct{ moments []moment }

// add notes how much is done now.
func (p *pace) add(now time.Time, done int64) {
	for len(p.moments) > 1 && now.Sub(p.moments[1].at) >= windowOfPace {
		p.moments = p.moments[1:]
	}
	p.moments = append(p.moments, moment{now, done})
}

// left says how long the rest takes at that pace. It isn't known at the beginning, and where nothing was done for a minute.
func (p *pace) left(rest int64) (time.Duration, bool) {
	if len(p.moments) == 0 || rest <= 0 {
		return 0, false
	}
	first, last := p.moments[0], p.moments[len(p.moments)-1]
	spent, done := last.at.Sub(first.at), last.done-first.done
	if spent < shortestPace || done <= 0 {
		return 0, false
	}
	seconds := float64(rest) / (float64(done) / spent.Seconds())
	if seconds > (365 * 24 * time.Hour).Seconds() {
		return 0, false
	}
	return time.Duration(seconds * float64(time.Second)), true
}

// leftOf says in words how long something takes yet.
func leftOf(left time.Duration) string {
	const day = 24 * time.Hour
	switch {
	case left < 90*time.Second:
		return fmt.Sprintf("%.0f s left", left.Seconds())
	case left < 90*time.Minute:
		return fmt.Sprintf("%.0f min left", left.Minutes())
	case left < 2*day:
		return fmt.Sprintf("%.0f h left", left.Hours())
	}
	return fmt.Sprintf("%.0f days left", left.Hours()/24)
}

// amounts says how much of how much is done, in the unit of the whole, or how much is where the whole isn't known. A whole that turns out to be less than
// what is done wasn't right.
func amounts(done, whole int64) string {
	switch {
	case whole < done || whole <= 0:
		return amount.Bytes(done)
	case whole >= 1e10:
		return fmt.Sprintf("%.1f of %.1f GB", float64(done)/1e9, float64(whole)/1e9)
	}
	return fmt.Sprintf("%.0f of %.0f MB", float64(done)/1e6, float64(whole)/1e6)
}
