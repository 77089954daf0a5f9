package forecast

import (
	"reflect"
	"testing"
)

// barred gives a file that all devices have but the one in the middle, whose system can't have such a name.
func barred() Name {
	name := inStep("a:b", "text", 3, 5)
	name.Bars, name.Own[1], name.Disk[1] = 1<<1, nil, nil
	name.Views[0][1], name.Views[2][1] = nil, nil
	return name
}

// A device takes nothing of a name that its system can't have, save that it is deleted. The others go on.
func TestNamesThatASystemCannotHave(t *testing.T) {
	for why, row := range map[string]struct {
		change func(name *Name)
		stuck  []Stuck
		text   string
	}{
		"all others have it": {func(*Name) {}, []Stuck{{1, "a:b", InvalidName}}, "text"},
		"it is changed":      {func(name *Name) { name.changed(0, "new", 70) }, []Stuck{{1, "a:b", InvalidName}}, "new"},
		"it is deleted":      {func(name *Name) { name.Disk[0] = nil }, nil, ""},
		"its system can":     {func(name *Name) { name.Bars = 0 }, nil, "text"},
	} {
		name := barred()
		row.change(&name)
		answer := New(Usual).OfGroup(three(), []Name{name})
		if len(answer.Ends) != 1 || !reflect.DeepEqual(answer.Ends[0].Stuck, row.stuck) {
			t.Errorf("%s: %+v", why, answer.Ends)
			continue
		}
		for i := range three() {
			due := row.text
			if i == 1 && row.stuck != nil {
				due = ""
			}
			if text, _ := textAt(answer.Ends[0], i); text != due {
				t.Errorf("%s: %d has %q", why, i, text)
			}
		}
	}
}

// Nothing can be put where a system can't have the name, and names are alike only if the same devices can't have them.
func TestNothingIsPutAtABarredName(t *testing.T) {
	below := barred()
	below.Name = "d/a:b"
	world := World{Devices: three(), Names: []Name{barred(), below}}
	if world.HasRoom(1, "a:b") || !world.HasRoom(0, "a:b") || !world.HasRoom(1, "other") {
		t.Error("room where there is none, or none where there is")
	}
	world.PutBelow(1, "d", 0)
	world.PutBelow(2, "d", 0)
	if world.At(1, "d/a:b") != nil || world.At(2, "d/a:b") == nil {
		t.Error("below a directory")
	}
	free := barred()
	free.Bars = 0
	if Shape(three(), []Name{free}) == Shape(three(), []Name{barred()}) {
		t.Error("they are alike")
	}
}
