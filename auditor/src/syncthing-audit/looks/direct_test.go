package looks

import (
	"encoding/json"
	"io"
	"math/rand"
	"reflect"
	"testing"
	"time"

	"syncthing-audit/part"
)

// pick gives one of these.
func pick[T any](random *rand.Rand, all ...T) T { return all[random.Intn(len(all))] }

// madeUp gives what a look may see of a name. What stands in it is one of few things, so that two looks often see the same.
func madeUp(random *rand.Rand, name string) *part.Name {
	made := aFile(func(n *part.Name) { n.Name = part.Bytes(name) })
	made.Receiving = pick(random, "", "", "1", "2")
	switch random.Intn(8) {
	case 0:
		ignored(made)
		return made
	case 1:
		made.Own = nil
	case 2:
		made.Own.Sequence = 5
	case 3:
		made.Own.ModifiedS++
	case 4:
		made.Own.Deleted, made.Own.Content = true, nil
	}
	made.Disk = pick(random, made.Disk, made.Disk, made.Disk, nil, &part.Node{ModifiedS: 3, Size: 5, Stamp: "2"}, &part.Node{ModifiedS: 4, Size: 5, Stamp: "1"})
	made.Views = pick(random, made.Views, made.Views, nil)
	made.Out = pick(random, nil, nil, nil, []part.LeftOut{{Kind: part.Unreadable, Why: "x"}}, []part.LeftOut{{Kind: part.Special, Why: "x"}},
		[]part.LeftOut{{Kind: part.Special, Why: "y"}})
	made.Moved = pick(random, nil, nil, nil, nil, []string{part.MovedDisk}, []string{part.MovedReceiving})
	return made
}

// text gives a value as text, by which two are the same or aren't.
func text(of any) string {
	data, err := json.Marshal(of)
	if err != nil {
		panic(err)
	}
	return string(data)
}

// saw gives what a look saw of a name, by what may change. What can't be read though it is there is told by the first look alone.
func saw(name *part.Name) map[string]string {
	views := ""
	for _, view := range name.Views {
		views += text(view)
	}
	outs := ""
	for _, out := range name.Out {
		if out.Kind != part.Unreadable || name.Disk == nil {
			outs += out.Kind + out.Why + " "
		}
	}
	return map[string]string{part.MovedRecord: text(name.Own), part.MovedViews: views, part.MovedReceiving: name.Receiving,
		part.MovedDisk: name.Disk.Mark() + outs}
}

// The order in which it is told what changed, of what no look itself told.
var changes = []string{part.MovedRecord, part.MovedViews, part.MovedReceiving, part.MovedDisk}

// directly reads what two looks that both have a name say of it.
func directly(one, other *part.Name) *part.Name {
	if one.IsIgnored() && other.IsIgnored() {
		return asSeen(one)
	}
	var moved []string
	for _, why := range append(append([]string{}, one.Moved...), other.Moved...) {
		if len(moved) == 0 || moved[0] != why {
			moved = append(moved, why)
		}
	}
	isRecorded := (&part.Name{Own: other.Own, Disk: one.Disk}).IsAsRecorded(0)
	if len(moved) == 0 {
		first, second := saw(one), saw(other)
		for _, why := range changes {
			if first[why] != second[why] {
				moved = append(moved, why)
			}
		}
		if len(one.Out) == 0 && one.Disk.Mark() == other.Disk.Mark() && !isRecorded {
			moved = append(moved, part.MovedUnscanned)
		}
	}
	if len(moved) == 0 {
		return asSeen(one)
	}
	told := &part.Name{Name: one.Name, Moved: moved}
	isOdd := one.Out != nil || other.Out != nil || one.Moved != nil || other.Moved != nil
	if !isOdd && one.Disk.Mark() == other.Disk.Mark() && !isRecorded {
		told.Waits = asSeen(&part.Name{Name: one.Name, Own: other.Own, Disk: one.Disk})
	}
	return told
}

// asSeen gives a name of the first look as it is told: without what only comparing needs.
func asSeen(name *part.Name) *part.Name {
	told := *name
	told.Receiving = ""
	if told.Disk != nil {
		node := *told.Disk
		node.Stamp = ""
		told.Disk = &node
	}
	return &told
}

// once gives what is told of a name that one look has alone.
func once(name *part.Name) *part.Name {
	if name.IsIgnored() {
		return &part.Name{Name: name.Name, Disk: name.Disk, Out: name.Out}
	}
	told := &part.Name{Name: name.Name, Moved: name.Moved}
	had := map[string]bool{part.MovedRecord: name.Own != nil, part.MovedViews: name.Views != nil, part.MovedReceiving: name.Receiving != "",
		part.MovedDisk: name.Disk != nil || name.Own == nil && name.Views == nil && name.Receiving == "" && name.Moved == nil}
	for _, why := range changes {
		if had[why] && (len(told.Moved) == 0 || told.Moved[0] != why) {
			told.Moved = append(told.Moved[:len(told.Moved):len(told.Moved)], why)
		}
	}
	return told
}

// Two looks at two folders of made-up names, and the same read name by name.
func TestJoinedLooksEqualADirectReading(t *testing.T) {
	for seed := int64(0); seed < 250; seed++ {
		random := rand.New(rand.NewSource(seed))
		first, second := firstLook(), secondLook()
		first.rest, second.rest = nil, nil
		first.head.Folders, second.head.Folders = append(first.head.Folders, first.head.Folders[0]), append(second.head.Folders, second.head.Folders[0])
		first.head.Folders[1].ID, second.head.Folders[1].ID = "pics", "pics"
		var expected []part.Line
		for _, folder := range []string{"docs", "pics"} {
			begin, end := part.Begin{Folder: folder}, part.End{Folder: folder, Max: 9, Bytes: 7}
			first.rest, second.rest = append(first.rest, part.Line{Begin: &begin}), append(second.rest, part.Line{Begin: &begin})
			expected = append(expected, part.Line{Begin: &begin})
			count := int64(0)
			for _, name := range []string{"a", "b", "c"} {
				one, other := madeUp(random, name), madeUp(random, name)
				told := directly(one, other)
				switch random.Intn(6) {
				case 0:
					one, told = nil, once(other)
				case 1:
					other, told = nil, once(one)
				case 2:
					continue
				}
				if one != nil {
					first.rest = append(first.rest, part.Line{Name: one})
				}
				if other != nil {
					second.rest = append(second.rest, part.Line{Name: other})
				}
				expected = append(expected, part.Line{Name: told})
				count++
			}
			later := end
			later.Max, later.ToIgnore, later.Bytes = 10, 2, 0
			later.Temporary, later.Linked = &part.Count{Names: 3}, &part.Count{Names: 4}
			first.rest, second.rest = append(first.rest, part.Line{End: &end}), append(second.rest, part.Line{End: &later})
			both := later
			both.Names, both.Bytes = count, end.Bytes
			expected = append(expected, part.Line{End: &both})
		}
		if told := allLines(t, first, second); !reflect.DeepEqual(told, expected) {
			t.Fatalf("seed %d:\n%s\nnot\n%s", seed, text(told), text(expected))
		}
	}
}

func allLines(t *testing.T, first, second *lines) []part.Line {
	stream, err := Join(first, second)
	if err != nil {
		t.Fatal(err)
	}
	var told []part.Line
	for {
		line, err := stream.Next()
		if err == io.EOF {
			return told
		}
		if err != nil {
			t.Fatal(err)
		}
		told = append(told, line)
	}
}

// The head of both looks says when the first was over and the second began, and leaves the heads of both as they were.
func TestTheHeadSaysWhenTheLooksWere(t *testing.T) {
	first, second := firstLook(), secondLook()
	second.head.Look.After[there] = "another"
	before := text([]part.Head{first.head, second.head})
	stream, err := Join(first, second)
	if err != nil {
		t.Fatal(err)
	}
	expected := &part.Look{Home: "home", ID: id, After: map[string]string{here: id, there: "another"}, At: time.Unix(1, 0), Ended: time.Unix(9, 0)}
	if !reflect.DeepEqual(stream.Head().Look, expected) {
		t.Errorf("%+v", stream.Head().Look)
	}
	if text([]part.Head{first.head, second.head}) != before {
		t.Error("a look's own head was changed")
	}
}

// A part without a look, and two looks in the wrong order, are refused.
func TestWhatRefusedLooksTell(t *testing.T) {
	for _, row := range []struct {
		told   string
		change func(first, second *part.Head)
	}{
		{errNoLook.Error(), func(first, _ *part.Head) { first.Look = nil }},
		{errNoLook.Error(), func(_, second *part.Head) { second.Look = nil }},
		{errNoLook.Error(), func(first, second *part.Head) { first.Look, second.Look = second.Look, first.Look }},
		{errNoLook.Error(), func(first, second *part.Head) { first.Look = second.Look }},
		{"the first look is at device " + here + ", the second one at " + there, func(_, second *part.Head) { second.Device = there }},
	} {
		first, second := firstLook(), secondLook()
		row.change(&first.head, &second.head)
		if _, err := Join(first, second); err == nil || err.Error() != row.told {
			t.Errorf("%v, not %s", err, row.told)
		}
	}
}

// Of two looks one of which isn't as long as the other nothing is told as if it were whole.
func TestLooksThatDoNotGoTogether(t *testing.T) {
	for why, change := range map[string]func(first, second *lines){
		"the first one ends":            func(first, _ *lines) { first.rest = first.rest[:0] },
		"the second one ends":           func(_, second *lines) { second.rest = second.rest[:1] },
		"the first one begins later":    func(first, _ *lines) { first.rest = first.rest[1:] },
		"the second one begins later":   func(_, second *lines) { second.rest = second.rest[1:] },
		"the first one begins again":    func(first, _ *lines) { first.rest = append(first.rest[:1:1], first.rest...) },
		"the second one begins again":   func(_, second *lines) { second.rest = append(second.rest[:1:1], second.rest...) },
		"the second one ends its names": func(_, second *lines) { second.rest = second.rest[:2] },
	} {
		first, second := firstLook(aFile(unchanged)), secondLook(aFile(unchanged))
		change(first, second)
		if err := readToTheEnd(first, second); err == nil {
			t.Errorf("%s: they were joined", why)
		}
	}
}

// readToTheEnd joins two looks and gives the first failure.
func readToTheEnd(first, second *lines) error {
	stream, err := Join(first, second)
	for err == nil {
		_, err = stream.Next()
	}
	if err == io.EOF {
		return nil
	}
	return err
}
