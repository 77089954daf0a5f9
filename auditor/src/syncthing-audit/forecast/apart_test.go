package forecast

import (
	"reflect"
	"testing"
)

// Devices that keep a name otherwise than the others are told with the reason.
func TestWhyDevicesKeepNames(t *testing.T) {
	for _, row := range []struct {
		why    Why
		change func(devices []Device, name Name)
	}{
		{KeepsLocalChange, func(devices []Device, name Name) {
			devices[1].Kind = ReceiveOnly
			name.changed(1, "local", 70)
		}},
		{NotSeen, func(_ []Device, name Name) { name.changed(1, "rot", 5) }},
		{IgnoresDeletions, func(devices []Device, name Name) {
			devices[1].IgnoreDelete = true
			name.Disk[0] = nil
		}},
	} {
		devices, name := three(), inStep("a.txt", "old", 3, 5)
		row.change(devices, name)
		for _, end := range New(Usual).OfGroup(devices, []Name{name}).Ends {
			if !reflect.DeepEqual(end.Apart, []Stuck{{1, "a.txt", row.why}}) {
				t.Errorf("%s: %+v", row.why, end.Apart)
			}
		}
	}
	if ends := New(Usual).OfGroup(three(), []Name{inStep("a.txt", "old", 3, 5)}).Ends; len(ends) != 1 || ends[0].Apart != nil {
		t.Errorf("%+v", ends)
	}
}

// Once a budget is spent nothing more is foretold, but of names that are like others.
func TestASpentBudget(t *testing.T) {
	forecaster := New(Budget{States: 100, Walks: 2, Total: 1000, Most: 1})
	for _, row := range []struct {
		name   string
		text   string
		time   int64
		isOver bool
	}{{"a", "new", 70, false}, {"b", "new", 70, false}, {"c", "old", 70, true}} {
		answer := forecaster.OfGroup(three(), []Name{inStep(row.name, "old", 3, 5).changed(0, row.text, row.time)})
		if answer.IsOver != row.isOver || (len(answer.Ends) == 0) != row.isOver {
			t.Errorf("%s: %+v", row.name, answer)
		}
	}
}

// A conflict copy hangs together with what it is a copy of.
func TestCopiesHangTogether(t *testing.T) {
	names := []Name{inStep("a.sync-conflict-20261128-230000-AAAAAAA.txt", "copy", 2, 5), inStep("a.txt", "text", 2, 5), inStep("b.txt", "other", 2, 5)}
	if groups := split(names); len(groups) != 2 || len(groups[0]) != 2 {
		t.Errorf("%d groups", len(groups))
	}
}
