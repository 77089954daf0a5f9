package page

import (
	"fmt"
	"time"
)

// Day is a day of the strip, with the worst of its nights.
type Day struct {
	Date  time.Time
	Kind  string // of the style: how it went
	Sign  string // which shows it without colours
	Words string
}

// kinds says how a status shows. What is no status of an answer is a night without one.
var kinds = map[int]struct{ kind, sign, words string }{
	0: {"good", "✓", InStep},
	1: {"bad", "✗", NotInStep},
	6: {"part", "○", AsFar},
}

// kindOf says how a status shows.
func kindOf(status int) (kind, sign, words string) {
	if shown, is := kinds[status]; is {
		return shown.kind, shown.sign, shown.words
	}
	return "none", "!", "no answer"
}

// order says which night of a day is the worse one.
var order = map[string]int{"good": 1, "part": 2, "bad": 3, "none": 4}

// daysOf gives the days up to today, so many at most, from the first one that had a night. A day without a night is told as that.
func daysOf(nights []Night, today time.Time, most int) []Day {
	if len(nights) == 0 {
		return nil
	}
	last := dateOf(today)
	first := dateOf(nights[0].At.In(today.Location()))
	if earliest := last.AddDate(0, 0, 1-most); first.Before(earliest) {
		first = earliest
	}
	days, places := []Day{}, map[string]int{}
	for date := first; !date.After(last); date = date.AddDate(0, 0, 1) {
		places[date.Format(dayLayout)] = len(days)
		days = append(days, Day{date, "no", "·", "no audit"})
	}
	for _, night := range nights {
		at, is := places[night.At.In(today.Location()).Format(dayLayout)]
		kind, sign, words := kindOf(night.Status)
		if is && order[kind] >= order[days[at].Kind] {
			days[at] = Day{days[at].Date, kind, sign, words + night.numbers()}
		}
	}
	return days
}

const dayLayout = "2006-01-02"

// dateOf gives noon of a day: days have 23 to 25 hours.
func dateOf(at time.Time) time.Time {
	return time.Date(at.Year(), at.Month(), at.Day(), 12, 0, 0, 0, at.Location())
}

// numbers says what a night found.
func (n Night) numbers() string {
	told := ""
	for _, part := range []struct {
		count int64
		word  string
	}{{n.Gone, "files gone"}, {n.Wrong, "wrong"}, {n.New, "new"}, {n.Mended, "mended"}} {
		if part.count > 0 {
			told += fmt.Sprintf(", %d %s", part.count, part.word)
		}
	}
	return told
}
