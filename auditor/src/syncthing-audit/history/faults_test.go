package history

import (
	"fmt"
	"strings"
	"testing"

	"syncthing-audit/part"
)

// named makes faults of these names, at one device.
func named(names string) []Fault {
	faults := []Fault{}
	for _, name := range strings.Fields(names) {
		faults = append(faults, Fault{Folder: "docs", Name: name, Device: part.Number(ids[0]), Cause: "other-bytes"})
	}
	return faults
}

// words gives the names of news.
func (n News) words() string {
	lists := []string{}
	for _, faults := range [][]Fault{n.New, n.Lasting, n.Mended, n.Unasked} {
		names := ""
		for _, fault := range faults {
			names += fault.Name
		}
		lists = append(lists, names)
	}
	return strings.Join(lists, "|")
}

// Each audit's news are what is new, what lasts, what is mended and what wasn't looked at. An audit that is kept twice, since a process ended before
// its news were told, has the same news again.
func TestNews(t *testing.T) {
	history := opened(t)
	for day, one := range []struct{ found, audited, news string }{
		{"", "abc", "|||"},
		{"a b", "abc", "ab|||"},
		{"b", "abc", "|b|a|"},
		{"b c", "abc", "c|b||"},
		{"c", "ac", "|c||b"},
		{"", "abc", "||bc|"},
		{"a a", "abc", "a|||"},
		{"", "", "|||a"},
		{"a", "abc", "|a||"},
		{"", "abc", "||a|"},
		{"", "abc", "|||"},
	} {
		for _, again := range []string{"", " again"} {
			news, err := history.Keep(night(day), named(one.found), func(fault Fault) bool { return strings.Contains(one.audited, fault.Name) })
			if err != nil || news.words() != one.news {
				t.Errorf("day %d%s: %q, not %q: %v", day, again, news.words(), one.news, err)
			}
		}
		if last, err := history.Last(); err != nil || !last.Equal(night(day)) {
			t.Error(last, err)
		}
	}
}

// A fault that lasts says since when, and in how many audits it was found. One that comes again after it was mended is another one.
func TestSinceWhen(t *testing.T) {
	history, audited := opened(t), func(Fault) bool { return true }
	fault := named("a")[0]
	for day, one := range []struct{ found, seen string }{
		{"a", "1 1 1"}, {"a", "1 2 2"}, {"b", "1 2 2"}, {"a", "4 4 1"}, {"a", "4 5 2"}, {"", "4 5 2"}, {"", "none"},
	} {
		if _, err := history.Keep(night(day), named(one.found), audited); err != nil {
			t.Fatal(err)
		}
		told := "none"
		if seen, err := history.Seen(fault); err != nil {
			t.Fatal(err)
		} else if seen != nil {
			told = fmt.Sprintf("%s %s %d", seen.First.Format("2"), seen.Last.Format("2"), seen.Audits)
		}
		if told != one.seen {
			t.Errorf("day %d: %s, not %s", day, told, one.seen)
		}
	}
}

// Names and causes that begin with others are faults of their own.
func TestFaultsThatLookAlike(t *testing.T) {
	history := opened(t)
	faults := []Fault{{"docs", "a", 1, "x"}, {"docs", "a", 1, "xy"}, {"docs", "a", 256, "x"}, {"docs", "a\x01", 1, "x"}, {"docs", "a/b", 1, ""}, {"doc", "sa", 1, "x"}}
	for place := range faults {
		news, err := history.Keep(night(place), faults[:place+1], func(Fault) bool { return true })
		if err != nil || len(news.New) != 1 || news.New[0] != faults[place] || len(news.Lasting) != place || len(news.Mended) != 0 {
			t.Errorf("%d: %+v, %v", place, news, err)
		}
	}
}
