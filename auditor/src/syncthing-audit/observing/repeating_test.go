package observing

import (
	"errors"
	"reflect"
	"strings"
	"testing"
	"time"

	"syncthing-audit/commandline"
)

// A clock of a test goes on as looks take time and waits are made, until a time.
func clockUntil(end time.Time, now *time.Time) clock {
	return clock{now: func() time.Time { return *now }, wait: func(until time.Time) bool {
		if until.After(*now) {
			*now = until
		}
		return until.Before(end)
	}}
}

// Looks are made each day at one time. One that takes longer is followed at once, and what was missed isn't made up for. What fails is told, and costs no
// other look.
func TestLooksGoOn(t *testing.T) {
	now := time.Unix(1_000_000, 0).UTC()
	start, day := now, 24*time.Hour
	times, takes := []time.Duration{}, []time.Duration{time.Hour, 2 * time.Hour, 60 * time.Hour, time.Hour, time.Hour, time.Hour}
	var log strings.Builder
	look := func() (int, error) {
		times = append(times, now.Sub(start))
		if len(times) == 2 {
			now = now.Add(time.Hour)
			return 0, errors.New("refused: no device is there")
		}
		now = now.Add(takes[len(times)-1])
		return len(times), nil
	}
	status, err := clockUntil(start.Add(7*day), &now).repeat(day, look, &log)
	if expected := []time.Duration{0, day, 2 * day, 2*day + 60*time.Hour, 3*day + 60*time.Hour}; !reflect.DeepEqual(times[:5], expected) {
		t.Errorf("looks at %v, not at %v", times, expected)
	}
	if status != len(times) || err != nil || strings.Count(log.String(), "a look at ") != len(times) || !strings.Contains(log.String(), "no device is there") {
		t.Errorf("%d, %v: %s", status, err, log.String())
	}
}

// What is wrong with the command line is wrong each time.
func TestWrongWordsEndTheLooks(t *testing.T) {
	now, count := time.Unix(0, 0), 0
	_, err := clockUntil(now.Add(time.Hour), &now).repeat(time.Minute, func() (int, error) { count++; return 0, commandline.WrongUse("no device") }, &strings.Builder{})
	if err == nil || count != 1 {
		t.Errorf("%v after %d looks", err, count)
	}
}

// A budget without a history has one in the observer's home.
func TestABudgetHasAHistory(t *testing.T) {
	read := commandline.Options{Homes: []string{"/home"}, Budget: 1}
	if err := checkBudget(&read); err != nil || read.History != "/home/history" {
		t.Errorf("%v, %q", err, read.History)
	}
}
