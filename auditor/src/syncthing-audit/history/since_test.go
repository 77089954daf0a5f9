package history

import (
	"errors"
	"io"
	"strings"
	"testing"

	"syncthing-audit/choice"
	"syncthing-audit/part"
)

// drained goes through all lines of a part.
func drained(t *testing.T, tee *Tee) int {
	lines := 0
	for {
		_, err := tee.Next()
		if errors.Is(err, io.EOF) {
			return lines
		}
		if err != nil {
			t.Fatal(err)
		}
		lines++
	}
}

// audit has the history see the parts of two devices, and keep these faults: what it says beside the answer.
func (h *History) audit(t *testing.T, day int, devices []device, names choice.Names, faults string) *Since {
	watch, err := h.Watch()
	if err != nil {
		t.Fatal(err)
	}
	numbers, ids, stayed := []uint64{}, map[uint64]string{}, map[string]int64{}
	for place, device := range devices {
		stream := device.partOf(place, names)
		stream.head.Made = night(day)
		numbers = append(numbers, stream.head.Number())
		ids[stream.head.Number()] = stream.head.Device
		tee := h.Tee(stream, watch)
		if drained(t, tee) < 2 || tee.End() != nil {
			t.Fatal("the lines aren't all there")
		}
		tee.AddStayed(stayed)
	}
	since, err := h.Since(Audited{At: night(day), Found: named(faults), Folders: map[string][]uint64{"docs": numbers}, IDs: ids, IsThere: watch.IsThere, Stayed: stayed,
		Names: func(folder, name string) bool { return names.Has(folder, name) && watch.IsClear(folder, name) }})
	if err != nil {
		t.Fatal(err)
	}
	return since
}

// counts gives how many faults are new, last, are mended and weren't looked at, and how many files changed everywhere.
func (s *Since) counts() [5]int64 {
	return [5]int64{s.New.Count, s.Lasting.Count, s.Mended.Count, s.Unasked.Count, s.Count}
}

// A name that one device leaves out, or that nobody asked for, isn't mended: nobody looked. One that is gone everywhere is deleted.
func TestWhatIsMendedWasLookedAt(t *testing.T) {
	good, unread := device{"a": {bytes: 'a'}, "b": {bytes: 'b'}}, device{"a": {unread: true}, "b": {bytes: 'b'}}
	for _, one := range []struct {
		why     string
		devices []device
		names   choice.Names
		counts  [5]int64
	}{
		{"looked at", []device{good, good}, choice.Names{}, [5]int64{0, 0, 1, 0, 0}},
		{"left out at one device", []device{good, unread}, choice.Names{}, [5]int64{0, 0, 0, 1, 0}},
		{"not asked for", []device{good, good}, choice.Names{Prefix: "b"}, [5]int64{0, 0, 0, 1, 0}},
		{"gone", []device{{"b": {bytes: 'b'}}, {"b": {bytes: 'b'}}}, choice.Names{}, [5]int64{0, 0, 0, 0, 0}},
	} {
		history := opened(t)
		if first := history.audit(t, 0, []device{good, good}, choice.Names{}, "a"); first.counts() != [5]int64{1, 0, 0, 0, 0} || first.Before != nil {
			t.Errorf("%s: %+v", one.why, first)
		}
		since := history.audit(t, 1, one.devices, one.names, "")
		if since.counts() != one.counts || since.Before == nil || !since.Before.Equal(night(0)) {
			t.Errorf("%s: %v, not %v", one.why, since.counts(), one.counts)
		}
	}
}

// What changed everywhere is told with when that was, and what is read says how old the oldest reading is.
func TestSince(t *testing.T) {
	history := opened(t)
	history.audit(t, 0, []device{{"a": {bytes: 'a'}, "b": {bytes: 'b'}}, {"a": {bytes: 'a'}, "b": {bytes: 'b'}}}, choice.Names{}, "")
	rotten := device{"a": {bytes: 'x'}, "b": {bytes: 'b'}}
	since := history.audit(t, 5, []device{rotten, rotten}, choice.Names{Prefix: "a"}, "")
	if since.Count != 1 || len(since.Changed) != 1 {
		t.Fatalf("%+v", since)
	}
	if counts := since.counts(); counts != [5]int64{1, 0, 0, 0, 1} || since.New.First[0].Reason != ChangedEverywhere || since.New.First[0].Device != "" {
		t.Errorf("%v, %+v", counts, since.New)
	}
	changed := since.Changed[0]
	if changed.Name != "a" || changed.Folder != "docs" || !changed.Before.Equal(night(0)) || !changed.Since.Equal(night(5)) || changed.Size != 9 ||
		changed.Block != 131072 || !strings.HasPrefix(changed.Hash, "61") || len(changed.Devices) != 2 {
		t.Errorf("%+v", changed)
	}
	for _, read := range since.Read {
		if read.Folder != "docs" || read.Files != 2 || read.Bytes != 18 || read.OldestName != "b" || !read.Oldest.Equal(night(0)) {
			t.Errorf("%+v", read)
		}
	}
	if len(since.Read) != 2 {
		t.Error(since.Read)
	}
	if lasting := history.audit(t, 6, []device{rotten, rotten}, choice.Names{}, ""); lasting.counts() != [5]int64{0, 1, 0, 0, 1} {
		t.Errorf("%+v", lasting)
	}
}

// A part that was made before what is kept changes nothing of it: neither bytes nor which names there are.
func TestAnOldPartChangesNothing(t *testing.T) {
	history := opened(t)
	history.mustTake(t, 7, device{"a": {bytes: 'a'}, "b": {bytes: 'b'}})
	history.mustTake(t, 3, device{"a": {bytes: 'x'}, "c": {bytes: 'c'}})
	read := history.readings(t, 0)
	if len(read) != 3 || read["a"].Content.Hash[0] != 'a' || !read["b"].At.Equal(night(7)) || !read["c"].At.Equal(night(3)) {
		t.Errorf("%v", read)
	}
	if told := history.spreads(t); told != "" {
		t.Error(told)
	}
}

// Where the history can't take what is read, the lines are given on all the same, and the end says why.
func TestLinesGoOnWhereTheHistoryIsFull(t *testing.T) {
	history, err := Open(t.TempDir())
	if err != nil {
		t.Fatal(err)
	}
	watch, err := history.Watch()
	if err != nil {
		t.Fatal(err)
	}
	stream := device{"a": {bytes: 'a'}}.partOf(0, choice.Names{})
	tee := history.Tee(stream, watch)
	history.Close()
	if lines := drained(t, tee); lines != 3 || tee.End() == nil {
		t.Errorf("%d lines, %v", lines, tee.End())
	}
}

// A stream that can leave out folders is told which.
func TestFoldersAreChosenThroughATee(t *testing.T) {
	asked := ""
	chooser := &choosing{made: device{}.partOf(0, choice.Names{}), asked: &asked}
	opened(t).Tee(chooser, &Watch{}).Choose(func(id string) bool { return id == "docs" })
	if asked != "docs true" {
		t.Error(asked)
	}
}

type choosing struct {
	*made
	asked *string
}

func (c *choosing) Choose(isChosen func(string) bool) {
	if isChosen("docs") && !isChosen("other") {
		*c.asked = "docs true"
	}
}

var _ part.Stream = &Tee{}

// What isn't at fault any more since its bytes came to all devices isn't mended: that is told in its place. Once the bytes are back it is.
func TestWhatSpreadIsNotMended(t *testing.T) {
	good, rotten := device{"a": {bytes: 'a'}, "b": {bytes: 'b'}}, device{"a": {bytes: 'x'}, "b": {bytes: 'b'}}
	history := opened(t)
	for day, one := range []struct {
		devices []device
		faults  string
		counts  [5]int64
	}{
		{[]device{good, good}, "", [5]int64{0, 0, 0, 0, 0}},
		{[]device{good, rotten}, "a", [5]int64{1, 0, 0, 0, 0}},
		{[]device{rotten, rotten}, "", [5]int64{1, 0, 0, 0, 1}},
		{[]device{good, good}, "", [5]int64{0, 0, 1, 0, 0}},
	} {
		if since := history.audit(t, day, one.devices, choice.Names{}, one.faults); since.counts() != one.counts {
			t.Errorf("day %d: %v, not %v: %+v", day, since.counts(), one.counts, since.Mended)
		}
	}
}
