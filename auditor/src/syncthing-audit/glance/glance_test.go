package glance

import (
	"encoding/json"
	"errors"
	"fmt"
	"io"
	"math/rand"
	"os"
	"path/filepath"
	"reflect"
	"strings"
	"testing"

	"syncthing-audit/disk"
	"syncthing-audit/part"
)

// What was changing, or waits, while it was read counts as moved; what is ignored doesn't.
func TestWhatMovedWhileItWasRead(t *testing.T) {
	for _, row := range []struct {
		outs  []part.LeftOut
		moved string
	}{
		{nil, ""}, {[]part.LeftOut{{Kind: part.Special}}, ""}, {[]part.LeftOut{{Kind: part.Changing, Why: disk.ErrChanged.Error()}}, part.MovedDisk},
		{[]part.LeftOut{{Kind: part.Special, Why: disk.ErrChanged.Error()}}, ""}, {[]part.LeftOut{{Kind: part.Special}, {Kind: part.Changing, Why: "x"}}, part.MovedViews},
		{[]part.LeftOut{{Kind: part.Rescan}}, part.MovedUnscanned}, {[]part.LeftOut{{Kind: part.Rescan}, {Kind: part.Ignored}}, ""},
	} {
		name := &part.Name{Name: "a", Out: row.outs, Disk: &part.Node{}}
		told := WithoutChanging(name)
		if isSame := told == name; isSame != (row.moved == "") || !isSame && !reflect.DeepEqual(told, &part.Name{Name: "a", Moved: []string{row.moved}}) {
			t.Errorf("%v: %+v", row.outs, told)
		}
	}
}

// glanceOf gives a glance that has these lines of one folder.
func glanceOf(t *testing.T, lines string) *Glance {
	file, err := os.Create(filepath.Join(t.TempDir(), "glance"))
	if err == nil {
		_, err = file.WriteString(lines)
	}
	if err == nil {
		_, err = file.Seek(0, io.SeekStart)
	}
	if err != nil {
		t.Fatal(err)
	}
	t.Cleanup(func() { file.Close() })
	return &Glance{Folders: []*os.File{file}}
}

// What is wrong with a glance, or with whoever takes the lines, ends the comparing; a glance that is whole has all its names told.
func TestAGlanceThatIsNotWhole(t *testing.T) {
	const one, three = "\"b\"\n\"x\"\n", "\"b\"\n\"x\"\n\"c\"\n\"ignored x\"\n\"d\"\n\"unread\"\n"
	lines := func() []part.Line {
		return []part.Line{{Begin: &part.Begin{}}, {Name: &part.Name{Name: "a"}}, {Name: &part.Name{Name: "d", Out: []part.LeftOut{{Kind: part.Unreadable}}}}, {End: &part.End{Names: 2}}}
	}
	for text, expected := range map[string]string{three + "\"e\"\n\"x\"\n": "ab!de!4", "\"a\"\n\"x\"\nx\n": "", "": "ad2", one: "ab!d3", three: "ab!d3", "x\n": "", one + "x\n": "", "\"b\"\n": "", "\"b\"": "", "\"b\"\nx\n": "", one + "\"c\"": ""} {
		for failsAt := 0; failsAt < 6; failsAt++ {
			told, count, failed := "", 0, errors.New("no room")
			take := glanceOf(t, text).Compare(func(line part.Line) error {
				if count++; count == failsAt {
					return failed
				}
				switch {
				case line.Name != nil:
					told += string(line.Name.Name) + strings.Repeat("!", len(line.Name.Moved))
				case line.End != nil:
					told += fmt.Sprint(line.End.Names)
				}
				return nil
			})
			var err error
			for _, line := range lines() {
				if err == nil {
					err = take(line)
				}
			}
			isOver := failsAt == 0 || failsAt > count
			if isOver && (err == nil) != (expected != "") || isOver && err == nil && told != expected || !isOver && err != failed {
				t.Errorf("%q, %d: %q, %v", text, failsAt, told, err)
			}
		}
	}
}

// What the disk fails to give at one of the two walks alone is damaged, and isn't in motion: at the glance or behind it, a name or what is below one.
func TestWhatADiskFailsToGiveAtOneWalk(t *testing.T) {
	damaged := func(why string, below bool) *part.LeftOut {
		return &part.LeftOut{Kind: part.Damaged, Why: why, Below: below}
	}
	node := func() *part.Node { return &part.Node{Size: 3, Stamp: "stamp"} }
	for why, row := range map[string]struct {
		glance disk.Found
		line   *part.Name // nothing where the name is gone by then
		told   string
	}{
		"at both, alike":             {disk.Found{Node: node()}, &part.Name{Disk: node()}, "0 moved, 0 damaged, below false, disk true"},
		"another one":                {disk.Found{Node: node()}, &part.Name{Disk: &part.Node{Size: 4}}, "1 moved, 0 damaged, below false, disk false"},
		"gone":                       {disk.Found{Node: node()}, nil, "1 moved, 0 damaged, below false, disk false"},
		"at the glance":              {disk.Found{Out: damaged("why", false)}, &part.Name{Disk: node()}, "0 moved, 1 damaged, below false, disk true"},
		"behind it":                  {disk.Found{Node: node()}, &part.Name{Out: []part.LeftOut{*damaged("why", false)}}, "0 moved, 1 damaged, below false, disk false"},
		"at both":                    {disk.Found{Out: damaged("why", false)}, &part.Name{Out: []part.LeftOut{*damaged("why", false)}}, "0 moved, 1 damaged, below false, disk false"},
		"at the glance, and gone":    {disk.Found{Out: damaged("why", false)}, nil, "0 moved, 1 damaged, below false, disk false"},
		"what is below, and gone":    {disk.Found{Out: damaged("why", true)}, nil, "0 moved, 1 damaged, below true, disk false"},
		"lost bytes of one that was": {disk.Found{Node: node()}, &part.Name{Disk: &part.Node{Size: 3, Stamp: "stamp", Lost: "why"}}, "0 moved, 0 damaged, below false, disk true"},
	} {
		file, err := os.Create(filepath.Join(t.TempDir(), "glance"))
		if err != nil {
			t.Fatal(err)
		}
		defer file.Close()
		row.glance.Name = "a/"
		writer := NewWriter(file)
		if err := writer.Take(row.glance, false); err == nil {
			err = writer.Flush()
		}
		if _, again := file.Seek(0, io.SeekStart); err != nil || again != nil {
			t.Fatal(err, again)
		}
		told := ""
		take := (&Glance{Folders: []*os.File{file}}).Compare(func(line part.Line) error {
			if name := line.Name; name != nil {
				told = fmt.Sprintf("%d moved, %d damaged, below %v, disk %v", len(name.Moved), len(name.Out), len(name.Out) > 0 && name.Out[0].Below, name.Disk != nil)
				if len(name.Out) > 0 && name.Out[0].Why != "why" {
					t.Errorf("%s: %v", why, name.Out)
				}
			}
			return nil
		})
		lines := []part.Line{{Begin: &part.Begin{}}}
		if row.line != nil {
			row.line.Name = "a/"
			lines = append(lines, part.Line{Name: row.line})
		}
		for _, line := range append(lines, part.Line{End: &part.End{}}) {
			if err := take(line); err != nil {
				t.Fatal(why, err)
			}
		}
		if told != row.told {
			t.Errorf("%s: %s", why, told)
		}
	}
}

// A glance that is closed has no file open, and one that has no room is said so at once, where much is written.
func TestTheFilesOfAGlance(t *testing.T) {
	glance := glanceOf(t, "")
	glance.Close()
	if _, err := glance.Folders[0].Read(make([]byte, 1)); !errors.Is(err, os.ErrClosed) {
		t.Errorf("it is open: %v", err)
	}
	if err := NewWriter(glance.Folders[0]).Take(disk.Found{Name: strings.Repeat("a", 1<<17)}, false); !errors.Is(err, os.ErrClosed) {
		t.Errorf("it is written: %v", err)
	}
}

// madeUp is what a glance and the lines behind it have of a name.
type madeUp struct {
	found     *disk.Found // nothing where the glance hasn't it
	isIgnored bool        // at the glance
	line      *part.Name  // nothing where it is gone
}

// madeUpName gives a name of which few things are told, so that both often tell the same.
func madeUpName(random *rand.Rand, name string) (drawn madeUp) {
	node := func() *part.Node {
		return []*part.Node{nil, {Size: 3, Stamp: "1"}, {Size: 3, Stamp: "2"}, {Type: 1}}[random.Intn(4)]
	}
	if random.Intn(4) > 0 {
		drawn.found = &disk.Found{Name: name, Node: node()}
		switch random.Intn(6) {
		case 0:
			drawn.found.Out = &part.LeftOut{Kind: part.Damaged, Why: "lost", Below: random.Intn(2) == 0}
		case 1:
			drawn.found.Out = &part.LeftOut{Kind: part.Unreadable, Why: "why"}
		case 2:
			drawn.isIgnored = true
		}
	}
	if random.Intn(4) > 0 {
		drawn.line = &part.Name{Name: part.Bytes(name), Disk: node()}
		if kinds := []string{"", "", part.Unreadable, part.Damaged, part.Ignored, part.Changing, part.Rescan}; random.Intn(2) == 0 {
			if kind := kinds[random.Intn(len(kinds))]; kind != "" {
				drawn.line.Out = []part.LeftOut{{Kind: kind, Why: "why"}}
			}
		}
		if random.Intn(6) == 0 {
			drawn.line.Moved = []string{part.MovedViews}
		}
	}
	return drawn
}

// told gives what is told of a name; nothing where nothing is.
func (m madeUp) told() *part.Name {
	var lost *part.LeftOut
	mark := ""
	if m.found != nil {
		if out := m.found.Out; out != nil && out.Kind == part.Damaged {
			lost = &part.LeftOut{Kind: part.Damaged, Why: out.Why, Below: out.Below}
		}
		mark = m.found.Node.Mark()
	}
	isUnread := m.found != nil && m.found.Node == nil && lost == nil
	if m.line == nil {
		switch {
		case m.found == nil || m.isIgnored:
			return nil
		case lost != nil:
			return &part.Name{Name: part.Bytes(m.found.Name), Out: []part.LeftOut{*lost}}
		}
		return &part.Name{Name: part.Bytes(m.found.Name), Moved: []string{part.MovedDisk}}
	}
	name := *WithoutChanging(m.line)
	isOut := len(name.Out) > 0
	switch {
	case isOut && name.Out[0].Kind != part.Unreadable || name.Moved != nil || isUnread && isOut && name.Disk == nil:
	case lost != nil:
		name.Out = append(append([]part.LeftOut{}, name.Out...), *lost)
	case isUnread || name.Disk.Mark() != mark:
		return &part.Name{Name: name.Name, Moved: []string{part.MovedDisk}}
	}
	return &name
}

// Of made-up folders each name is told as a plain reading of both walks says, and how many there are.
func TestAGlanceIsComparedAsAPlainReadingSays(t *testing.T) {
	room := t.TempDir()
	for seed := int64(0); seed < 500 && !t.Failed(); seed++ {
		random, glance := rand.New(rand.NewSource(seed)), &Glance{}
		var lines, told, due []part.Line
		for folder := 0; folder < 2; folder++ {
			file, err := os.Create(filepath.Join(room, fmt.Sprint(folder)))
			if err != nil {
				t.Fatal(err)
			}
			glance.Folders = append(glance.Folders, file)
			writer, count := NewWriter(file), int64(0)
			lines, due = append(lines, part.Line{Begin: &part.Begin{}}), append(due, part.Line{Begin: &part.Begin{}})
			listed := int64(0)
			for _, name := range []string{"a", "b", "b/c", "d\n\"", "e"} {
				drawn := madeUpName(random, name)
				if drawn.found != nil && writer.Take(*drawn.found, drawn.isIgnored) != nil {
					t.Fatal("it isn't written")
				}
				if drawn.line != nil {
					lines = append(lines, part.Line{Name: drawn.line})
					listed++
				}
				if name := drawn.told(); name != nil {
					due = append(due, part.Line{Name: name})
					count++
				}
			}
			lines, due = append(lines, part.Line{End: &part.End{Names: listed}}), append(due, part.Line{End: &part.End{Names: count}})
			if writer.Flush() != nil {
				t.Fatal("it isn't written")
			}
			if _, err := file.Seek(0, io.SeekStart); err != nil {
				t.Fatal(err)
			}
		}
		take := glance.Compare(func(line part.Line) error { told = append(told, line); return nil })
		for _, line := range lines {
			if err := take(line); err != nil {
				t.Fatal(err)
			}
		}
		if glance.Close(); !reflect.DeepEqual(told, due) {
			t.Errorf("seed %d: %s, not %s", seed, text(told), text(due))
		}
	}
}

// text gives lines as text.
func text(of []part.Line) string {
	told, err := json.Marshal(of)
	if err != nil {
		panic(err)
	}
	return string(told)
}
