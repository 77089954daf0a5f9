package history

import (
	"testing"

	"syncthing-audit/choice"
	"syncthing-audit/part"
)

// auditOf is an audit of the first devices of a folder, or of the last one, whatever others share it; the fault is of the second device's file, or of all together.
func (h *History) auditOf(t *testing.T, day int, devices map[int]device, found []Fault) *Since {
	watch, err := h.Watch()
	if err != nil {
		t.Fatal(err)
	}
	audited := Audited{At: night(day), Found: found, Folders: map[string][]uint64{}, Sharing: map[string][]uint64{}, IDs: map[uint64]string{}, IsThere: watch.IsThere, Stayed: map[string]int64{}, Names: func(folder, name string) bool { return watch.IsClear(folder, name) }}
	for place, id := range ids {
		audited.Sharing["docs"] = append(audited.Sharing["docs"], part.Number(id))
		audited.IDs[part.Number(id)] = id
		has, is := devices[place]
		if !is {
			continue
		}
		stream := has.partOf(place, choice.Names{})
		stream.head.Made = night(day)
		audited.Folders["docs"] = append(audited.Folders["docs"], part.Number(id))
		tee := h.Tee(stream, watch)
		if drained(t, tee) < 2 || tee.End() != nil {
			t.Fatal("the lines aren't all there")
		}
		tee.AddStayed(audited.Stayed)
	}
	since, err := h.Since(audited)
	if err != nil {
		t.Fatal(err)
	}
	return since
}

// A device that is off for a night has none of its faults mended by that, and what changed on it alone didn't change everywhere. Once it is back the fault
// lasts, and isn't new. The same goes for a fault of all devices together.
func TestADeviceThatIsOff(t *testing.T) {
	good, rotten := device{"f": {bytes: 'a', recorded: 'a'}}, device{"f": {bytes: 'b', recorded: 'a'}}
	for _, number := range []uint64{part.Number(ids[1]), 0} {
		history, found := opened(t), []Fault{{Folder: "docs", Name: "f", Device: number, Cause: "StoreDiffers"}}
		for day, one := range []struct {
			devices map[int]device
			found   []Fault
			counts  [5]int64 // new, lasting, mended, not looked at, changed everywhere
		}{
			{map[int]device{0: good, 1: good}, nil, [5]int64{}},
			{map[int]device{0: good, 1: rotten}, found, [5]int64{1, 0, 0, 0, 0}},
			{map[int]device{0: good}, nil, [5]int64{0, 0, 0, 1, 0}},
			{map[int]device{0: good}, nil, [5]int64{0, 0, 0, 1, 0}},
			{map[int]device{0: good, 1: rotten}, found, [5]int64{0, 1, 0, 0, 0}},
			{map[int]device{1: rotten}, found, [5]int64{0, 1, 0, 0, 0}},
			{map[int]device{0: good, 1: good}, nil, [5]int64{0, 0, 1, 0, 0}},
		} {
			if since := history.auditOf(t, day, one.devices, one.found); since.counts() != one.counts {
				t.Errorf("device %d, day %d: %v, not %v", number, day, since.counts(), one.counts)
			}
		}
	}
}

// What changed everywhere stays so while a device is off, and isn't new when it is back.
func TestWhatChangedEverywhereWhileADeviceIsOff(t *testing.T) {
	before, after := device{"f": {bytes: 'a', recorded: 'a'}}, device{"f": {bytes: 'b', recorded: 'b'}}
	history := opened(t)
	for day, one := range []struct {
		devices map[int]device
		counts  [5]int64
	}{
		{map[int]device{0: before, 1: before}, [5]int64{}}, {map[int]device{0: after, 1: after}, [5]int64{1, 0, 0, 0, 1}}, {map[int]device{0: after}, [5]int64{0, 1, 0, 0, 1}},
		{map[int]device{0: after, 1: after}, [5]int64{0, 1, 0, 0, 1}}, {map[int]device{0: before, 1: before}, [5]int64{0, 0, 1, 0, 0}},
	} {
		if since := history.auditOf(t, day, one.devices, nil); since.counts() != one.counts {
			t.Errorf("day %d: %v, not %v", day, since.counts(), one.counts)
		}
	}
}

// A device with which nobody shares the folder any more keeps nothing from being told, and is told nothing of, whether its file changed before or not.
func TestADeviceThatIsGoneForGood(t *testing.T) {
	before, after := device{"f": {bytes: 'a', recorded: 'a'}}, device{"f": {bytes: 'b', recorded: 'b'}}
	of := ids
	t.Cleanup(func() { ids = of })
	for _, last := range []device{before, after} {
		history := opened(t)
		ids = of
		history.auditOf(t, 0, map[int]device{0: before, 1: before}, nil)
		history.auditOf(t, 1, map[int]device{0: before, 1: last}, nil)
		ids = of[:1]
		if since := history.auditOf(t, 2, map[int]device{0: before}, nil); since.Count+since.Takes != 0 {
			t.Errorf("%+v, %+v", since.Changed, since.Taken)
		}
		since := history.auditOf(t, 3, map[int]device{0: after}, nil)
		if since.Count != 1 || len(since.Changed[0].Devices) != 1 || since.Changed[0].Devices[0] != ids[0] || !since.Changed[0].Since.Equal(night(3)) {
			t.Errorf("%+v", since.Changed)
		}
	}
}
