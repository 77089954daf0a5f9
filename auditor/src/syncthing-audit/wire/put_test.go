package wire

import (
	"errors"
	"math"
	"math/rand"
	"sort"
	"testing"

	"syncthing-audit/device"
)

// An index has of each name the record that was put last, and the highest sequence of all. A record that can't be read is refused with all beside it.
func TestRecordsThatArePut(t *testing.T) {
	names := []string{"a", "a/b", "aa", "b", "\x7f", "c"}
	for seed := int64(0); seed < 30; seed++ {
		random, index := rand.New(rand.NewSource(seed)), NewIndex(7)
		kept, highest := map[string]int64{}, int64(0)
		for batch := 0; batch < 6; batch++ {
			var texts [][]byte
			for count := random.Intn(4); count > 0; count-- {
				put := file{name: names[random.Intn(len(names))], data: "text", sequence: uint64(1 + random.Int63n(50))}
				texts = append(texts, put.text())
			}
			if isRefused := random.Intn(4) == 0; isRefused {
				if err := index.Put(append(texts, []byte("\xff"))...); err == nil {
					t.Fatal("what is no record is put")
				}
			} else if err := index.Put(texts...); err != nil {
				t.Fatal(err)
			} else {
				for _, text := range texts {
					entry, err := entryIn(text, math.MaxInt)
					if err != nil {
						t.Fatal(err)
					}
					kept[entry.Name] = entry.Sequence
					if entry.Sequence > highest {
						highest = entry.Sequence
					}
				}
			}
			checkKept(t, index, names, kept, highest)
		}
		if err := index.begin(9); err != nil || index.ID != 9 {
			t.Errorf("%d: %v", index.ID, err)
		}
		checkKept(t, index, names, nil, 0)
		if err := index.Close(); err != nil {
			t.Error(err)
		}
	}
}

// checkKept compares an index with the sequences that it is to have by name.
func checkKept(t *testing.T, index *Index, names []string, kept map[string]int64, highest int64) {
	t.Helper()
	count, err := index.Count()
	if err != nil || count != int64(len(kept)) || index.Highest != highest {
		t.Fatalf("%d names, not %d; up to %d, not %d: %v", count, len(kept), index.Highest, highest, err)
	}
	for _, name := range names {
		sequence, due := kept[name]
		entry, is, err := index.Get(name)
		if err != nil || is != due || is && (entry.Name != name || entry.Record == nil || entry.Record.Sequence != sequence) {
			t.Fatalf("%q: %+v, %v, %v", name, entry, is, err)
		}
	}
	var told []string
	if err := index.Each(func(entry device.Entry) error { told = append(told, entry.Name); return nil }); err != nil || !sort.StringsAreSorted(told) || len(told) != len(kept) {
		t.Fatalf("%q: %v", told, err)
	}
	stopped, taken := errors.New("stopped"), 0
	err = index.Each(func(device.Entry) error { taken++; return stopped })
	if len(kept) > 0 && (taken != 1 || !errors.Is(err, stopped)) {
		t.Fatalf("%d were taken: %v", taken, err)
	}
}

// Each request that waits has a number of its own, above 0, also once the numbers begin anew. None is given behind the end of a connection.
func TestNumbersOfRequests(t *testing.T) {
	waiting := make(chan response)
	connection := &Connection{next: math.MaxInt32 - 2, waiting: map[int32]chan response{1: waiting, 2: waiting}}
	for _, due := range []int32{math.MaxInt32 - 1, math.MaxInt32, 3, 4} {
		if id, err := connection.expect(waiting); err != nil || id != due || connection.waiting[id] == nil {
			t.Errorf("%d, not %d: %v", id, due, err)
		}
	}
	connection.forget(3)
	if connection.waiting[3] != nil || connection.waiting[4] == nil || len(connection.waiting) != 5 {
		t.Errorf("%d wait", len(connection.waiting))
	}
	connection.failure = errors.New("over")
	if id, err := connection.expect(waiting); id != 0 || err != connection.failure || connection.ending() != connection.failure {
		t.Errorf("%d, %v", id, err)
	}
}

// An Index stands in place of all that was had, with sequences of its own; an Index Update goes on behind it.
func TestAnIndexBeginsAnew(t *testing.T) {
	limits := short()
	taking := &taker{folder: "docs", limits: &limits, spent: &spent{}, index: NewIndex(7)}
	defer taking.index.Close()
	for _, row := range []struct {
		file     file
		isUpdate bool
		err      error
		kept     map[string]int64
		highest  int64
	}{
		{file{name: "a", sequence: 9}, false, nil, map[string]int64{"a": 9}, 9}, {file{name: "b", sequence: 3}, false, nil, map[string]int64{"b": 3}, 3},
		{file{name: "c", sequence: 3}, true, SequenceFalls, map[string]int64{"b": 3}, 3}, {file{name: "c", sequence: 4}, true, nil, map[string]int64{"b": 3, "c": 4}, 4},
	} {
		if err := taking.take(indexOf("docs", row.file), row.isUpdate); !errors.Is(err, row.err) {
			t.Errorf("%+v: %v", row.file, err)
		}
		checkKept(t, taking.index, []string{"a", "b", "c"}, row.kept, row.highest)
	}
}
