package join

import (
	"fmt"
	"strings"
	"testing"
	"time"

	"syncthing-audit/part"
)

// looked gives three devices that share a folder and were looked at twice, each second look behind all first ones.
func looked() []*Device {
	devices := sharing(map[byte]string{1: "23", 2: "13", 3: "12"}, unchanged)
	for place, one := range devices {
		look := &part.Look{Home: "home", ID: fmt.Sprint("id of ", place), After: map[string]string{},
			At: time.Unix(int64(10+place), 0), Ended: time.Unix(int64(100-place), 0)}
		for other := range devices {
			look.After[devices[other].Head.Device] = fmt.Sprint("id of ", other)
		}
		one.Head.Look = look
	}
	return devices
}

// Each second look has to name each first one.
func TestOrderOfLooks(t *testing.T) {
	cases := []struct {
		why    string
		change func(devices []*Device)
		told   string
	}{
		{"in order", func([]*Device) {}, ""},
		{"a second look before a first one", func(d []*Device) { delete(d[0].Head.Look.After, d[2].Head.Device) }, "no token of the first look of"},
		{"a first look that was made anew", func(d []*Device) { d[1].Head.Look.ID = "another" }, "has no token of its first look"},
		{"one that was looked at once", func(d []*Device) { d[1].Head.Look = nil }, "make all parts in the same way"},
		{"all but one were looked at once", func(d []*Device) { d[0].Head.Look, d[1].Head.Look = nil, nil }, "make all parts in the same way"},
		{"a device that knew more at its first look", func(d []*Device) {
			d[0].Head.Folders[0].Views = []part.View{{Device: d[1].Head.Device, IndexID: d[1].Head.Folders[0].IndexID, Max: 6}}
		}, "was an older home put in its place"},
		{"a device that knows more at its second look", func(d []*Device) {
			d[0].Head.Folders[0].Views = []part.View{{Device: d[1].Head.Device, IndexID: d[1].Head.Folders[0].IndexID, Max: 5, Heard: 6}}
		}, ""},
	}
	for _, one := range cases {
		devices := looked()
		one.change(devices)
		plan, err := NewPlan(devices, nil)
		told := fmt.Sprint(err)
		if err == nil {
			told = ""
			for _, refusal := range append(plan.Refusals, plan.Earlier...) {
				told += refusal.Why
			}
		}
		if (one.told == "") != (told == "") || !strings.Contains(told, one.told) {
			t.Errorf("%s: %q", one.why, told)
		}
	}
}

// The time between the last first look and the first second one isn't known where the clocks say that it is none.
func TestTimeBetweenLooks(t *testing.T) {
	plan, err := NewPlan(looked(), nil)
	if err != nil {
		t.Fatal(err)
	}
	if spent, err := plan.Folders[0].Still(); err != nil || spent != 86*time.Second {
		t.Errorf("%v, %v", spent, err)
	}
	plan.Devices[1].Head.Look.Ended = time.Unix(11, 0)
	if _, err := plan.Folders[0].Still(); err == nil {
		t.Error("a second look before the first ones took no time")
	}
}

// A device has heard of another one's record where its view has it, and goes as far as it.
func TestWhatWasHeardOf(t *testing.T) {
	record := func(sequence int64, counter uint64) *part.Record {
		return &part.Record{ModifiedBy: 1, Sequence: sequence, Version: [][2]uint64{{1, counter}}}
	}
	cases := []struct {
		why     string
		own     *part.Record
		seen    *part.Record
		heard   int64
		unheard bool
	}{
		{"the record", record(4, 2), record(4, 2), 4, false},
		{"it under an older sequence", record(4, 2), record(3, 2), 4, false},
		{"it under an older sequence, and nothing since", record(4, 2), record(3, 2), 3, true},
		{"an older version", record(4, 2), record(3, 1), 4, true},
		{"nothing of the name", record(4, 2), nil, 4, true},
		{"no own record", nil, record(4, 2), 4, false},
		{"a local change", &part.Record{Sequence: 4, Invalid: true}, &part.Record{Sequence: 4}, 4, true},
	}
	for _, one := range cases {
		plan, err := NewPlan(looked(), nil)
		if err != nil {
			t.Fatal(err)
		}
		folder := plan.Folders[0]
		row := &Row{Name: "a", At: []*part.Name{{}, {Own: one.own}, nil}}
		folder.Members[0].About.Views = []part.View{{Device: folder.Members[2].Head.Device}, {Device: folder.Members[1].Head.Device, Heard: one.heard}}
		if one.seen != nil {
			row.At[0].Views = []part.Seen{{View: 1, Record: one.seen}}
		}
		if folder.IsUnheard(row, 0, 1) != one.unheard {
			t.Errorf("%s: expected %v", one.why, one.unheard)
		}
	}
}
