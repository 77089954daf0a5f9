package outlook

import (
	"fmt"
	"strings"
	"testing"

	"syncthing-audit/forecast"
	"syncthing-audit/forecast/read"
	"syncthing-audit/join"
	"syncthing-audit/part"
)

// cut gives what stands on a disk this size, and as many seconds more.
func cut(node *part.Node, size, seconds int64) {
	node.Size, node.ModifiedS = size, node.ModifiedS+seconds
	node.Contents = []part.Content{{Size: size, BlockSize: 1 << 17, Hash: part.Hash{77, byte(size)}}}
}

// changed has a device record a change of a name that no other device has heard of.
func changed(row *join.Row, member int, hash byte, time int64) {
	at := row.At[member]
	own := *at.Own
	own.Content = &part.Content{Size: 5, BlockSize: 1 << 17, Hash: part.Hash{hash}}
	own.Version, own.ModifiedS, own.Sequence = [][2]uint64{{uint64(member + 1), 5}, {9, 1}}, time, 12
	at.Own, at.Disk = &own, &part.Node{ModifiedS: time, Size: 5, Contents: []part.Content{*own.Content}, Permissions: 0o644}
}

// directory gives a directory that is at rest on three devices.
func directory(name string) *join.Row { return calmDirectory(name, 3) }

// full gives a directory with so many files, all at rest.
func full(files int) []*join.Row {
	rows := []*join.Row{directory("d")}
	for place := 0; place < files; place++ {
		rows = append(rows, calm(fmt.Sprintf("d/%02d", place), 3, byte(place+1)))
	}
	return rows
}

// goneAt has nothing stand at all these names on a device.
func goneAt(member int, all []*join.Row) {
	for _, row := range all {
		row.At[member].Disk = nil
	}
}

// changedBelow gives a directory that is gone on the first device, below which the second one has an edit.
func changedBelow() []*join.Row {
	all := full(2)
	goneAt(0, all)
	cut(all[1].At[1].Disk, 9, 90)
	return all
}

var repairs = []struct {
	why   string
	rows  func() []*join.Row
	plans string
}{
	{"a file that was emptied under a later time is copied back", func() []*join.Row {
		row := calm("a", 3, 1)
		cut(row.At[1].Disk, 0, 50)
		return []*join.Row{row}
	}, "a: copy to 1 from 0; then what 0, 2 have"},
	{"one that was cut short is copied back, and what it has is saved", func() []*join.Row {
		row := calm("a", 3, 1)
		cut(row.At[1].Disk, 2, 0)
		return []*join.Row{row}
	}, "a: save on 1, copy to 1 from 0; then what 0, 2 have"},
	{"what is longer under the recorded time is saved alone: the record may be the damage", func() []*join.Row {
		row := calm("a", 3, 1)
		cut(row.At[1].Disk, 9, 0)
		return []*join.Row{row}
	}, "a: save on 0, save on 1"},
	{"where an empty file is recorded, what has bytes is saved alone", func() []*join.Row {
		row := calm("a", 3, 1)
		for member, at := range row.At {
			at.Own.Content.Size, at.Disk.Size = 0, 0
			for _, seen := range at.Views {
				seen.Record.Content.Size = 0
			}
			at.Disk.Contents[0] = *at.Own.Content
			if member == 1 {
				cut(at.Disk, 9, 0)
			}
		}
		return []*join.Row{row}
	}, "a: save on 1"},
	{"rotten bytes that may come to all by an older change are replaced by the last change", func() []*join.Row {
		row := calm("a", 3, 1)
		changed(row, 0, 2, 300)
		changed(row, 2, 3, 200)
		row.At[1].Own.ModifiedS, row.At[1].Disk.ModifiedS, row.At[1].Own.Sequence = 400, 400, 12
		row.At[1].Own.Version, row.At[1].Own.Content = [][2]uint64{{1, 2}, {9, 1}}, &part.Content{Size: 5, BlockSize: 1 << 17, Hash: part.Hash{9}}
		row.At[1].Disk.Contents[0].Hash = part.Hash{66}
		return []*join.Row{row}
	}, "a: save on 1, copy to 1 from 0; then what 0 have, and copies of 2"},
	{"an edit that no scan has seen is what is due", func() []*join.Row {
		row := calm("a", 3, 1)
		cut(row.At[0].Disk, 9, 90)
		cut(row.At[1].Disk, 0, 0)
		return []*join.Row{row}
	}, "a: save on 2, copy to 1 from 0; then what 0 have"},
	{"a directory comes back with all that is below it", func() []*join.Row {
		all := full(30)
		goneAt(1, all)
		return all
	}, "d and 30 below: copy to 1 from 0; then what 0, 2 have"},
	{"a directory takes the place of a file, which is saved", func() []*join.Row {
		all := full(2)
		goneAt(1, all)
		all[0].At[1].Disk = &part.Node{ModifiedS: 300, Size: 5, Contents: []part.Content{{Size: 5, BlockSize: 1 << 17, Hash: part.Hash{88}}}, Permissions: 0o644}
		return all
	}, "d and 2 below: save on 1, delete on 1, copy to 1 from 0; then what 0, 2 have"},
	{"below a directory that comes back rotten bytes are replaced, too", func() []*join.Row {
		all := full(2)
		goneAt(1, all)
		all[1].At[0].Disk.Contents[0].Hash = part.Hash{66}
		return all
	}, "d and 2 below: copy to 1 from 2; then what 0, 2 have | d/00: save on 0, copy to 0 from 2; then what 2 have"},
	{"a directory comes back with an edit below it that no scan has seen", changedBelow, "d and 1 below: copy to 0 from 1; then what 1, 2 have"},
	{"a directory that somebody renamed isn't brought back", func() []*join.Row {
		all := full(2)
		goneAt(1, all)
		for place, row := range all[1:] {
			moved := &join.Row{Name: fmt.Sprintf("e%02d", place), At: make([]*part.Name, 3)}
			moved.At[1] = &part.Name{Name: part.Bytes(moved.Name), Disk: row.At[0].Disk}
			all = append(all, moved)
		}
		return all
	}, "d: save on 0"},
	{"a file that somebody renamed isn't brought back", func() []*join.Row {
		row := calm("a", 3, 1)
		moved := &join.Row{Name: "b", At: []*part.Name{nil, {Name: "b", Disk: row.At[1].Disk}, nil}}
		row.At[1].Disk = nil
		return []*join.Row{row, moved}
	}, ""},
}

// shown gives plans as a text.
func shown(all []*Plan) string {
	var made []string
	for _, plan := range all {
		var steps []string
		for _, step := range plan.Steps {
			told := fmt.Sprintf("%s on %d", step.Act, memberOf(step.Device))
			if step.Act == Copy {
				told = fmt.Sprintf("copy to %d from %d", memberOf(step.Device), memberOf(step.From))
			}
			steps = append(steps, told)
		}
		text := string(plan.Names[0])
		if plan.Below > 0 {
			text += fmt.Sprintf(" and %d below", plan.Below)
		}
		text += ": " + strings.Join(steps, ", ")
		if plan.Goal != nil {
			text += fmt.Sprintf("; then what %s have", strings.Trim(strings.ReplaceAll(fmt.Sprint(placesOf(plan.Goal.Devices)), " ", ", "), "[]"))
		}
		if len(plan.Copies) > 0 {
			text += fmt.Sprintf(", and copies of %s", strings.Trim(fmt.Sprint(placesOf(plan.Copies)), "[]"))
		}
		made = append(made, text)
	}
	return strings.Join(made, " | ")
}

// What is due is put back where a disk was harmed.
func TestRepairs(t *testing.T) {
	for _, row := range repairs {
		told := outlookOf(folderOf("send-receive", "send-receive", "send-receive"), row.rows())
		if text := shown(told.Plans); text != row.plans {
			t.Errorf("%s: %s, %+v", row.why, text, told.Listed)
		}
	}
}

// What a device that only receives changed isn't carried to others with the directory above it.
func TestLocalChangesAreNotCopied(t *testing.T) {
	told := outlookOf(folderOf("send-receive", "receive-only", "send-receive"), changedBelow())
	if text := shown(told.Plans); text != "d and 1 below: copy to 0 from 2; then what 1, 2 have | d/00: save on 2" {
		t.Errorf("%s, %+v", text, told.Listed)
	}
}

// Whoever stops after any step of all plans, in the order in which they are told, has lost nothing that stands on a disk now, but what is lost
// without them, and what was damaged.
func TestAllPlansAreSafeFromTheTop(t *testing.T) {
	steps := 0
	for seed := int64(200); seed < 230; seed++ {
		folder, all := folderOf(kindsOf(seed, 3)...), draw(seed, 3, 4)
		from := read.NewRows(folder)
		for _, row := range all {
			from.Take(row)
		}
		world, saved := from.World().Copied(), map[forecast.Content]bool{}
		before := bytesOnDisks(&world)
		unavoidable, isKnown := lostAtEnds(&world, before, saved)
		for _, plan := range outlookOf(folder, all).Plans {
			for _, step := range plan.Steps {
				for _, name := range plan.Names {
					what := world.At(memberOf(step.Device), string(name))
					if step.Act == Save || plan.Goal != nil && isNobodys(&world, string(name), memberOf(step.Device)) {
						saved[what.Content] = true
					}
					if step.Act != Save {
						carryOut(&world, string(name), &Plan{Steps: []Step{step}})
					}
				}
				lost, isEnd := lostAtEnds(&world, before, saved)
				for content := range lost {
					if isKnown && isEnd && !unavoidable[content] {
						t.Errorf("seed %d: %v is lost after %v of %v", seed, content, step, plan.Names)
					}
				}
				steps++
			}
		}
	}
	if steps < 20 {
		t.Errorf("%d steps were tried only", steps)
	}
}

// isNobodys says whether a device has other bytes than it recorded, under the recorded time.
func isNobodys(world *forecast.World, name string, member int) bool {
	for place := range world.Names {
		if other := &world.Names[place]; other.Name == name {
			own, what := other.Own[member], other.Disk[member]
			return own != nil && what != nil && own.Time == what.Time && own.Content != what.Content
		}
	}
	return false
}

func bytesOnDisks(world *forecast.World) map[forecast.Content]bool {
	contents := map[forecast.Content]bool{}
	for place := range world.Names {
		for _, what := range world.Names[place].Disk {
			if what != nil && what.Content.Size > 0 {
				contents[what.Content] = true
			}
		}
	}
	return contents
}

// lostAtEnds gives which of these bytes are on no disk at some end, and weren't saved; nothing where that isn't known.
func lostAtEnds(world *forecast.World, before, saved map[forecast.Content]bool) (map[forecast.Content]bool, bool) {
	left := map[forecast.Content]bool{}
	for _, group := range world.Copied().Groups() {
		answer := forecast.New(forecast.Usual).OfGroup(group.Devices, group.Names)
		if len(answer.Ends) == 0 || answer.Endless > 0 {
			return nil, false
		}
		for content := range answer.Ends[0].Contents() {
			isAtAll := true
			for place := range answer.Ends {
				isAtAll = isAtAll && answer.Ends[place].Contents()[content]
			}
			left[content] = left[content] || isAtAll
		}
	}
	contents := map[forecast.Content]bool{}
	for content := range before {
		if !left[content] && !saved[content] {
			contents[content] = true
		}
	}
	return contents, true
}
