package outlook

import (
	"fmt"
	"reflect"
	"testing"

	"syncthing-audit/join"
	"syncthing-audit/part"
)

// calmDirectory gives a directory that is at rest on so many devices.
func calmDirectory(name string, devices int) *join.Row {
	row := calm(name, devices, 0)
	toDirectory := func(record *part.Record) { record.Type, record.Content = 1, nil }
	for _, at := range row.At {
		toDirectory(at.Own)
		for view := range at.Views {
			toDirectory(at.Views[view].Record)
		}
		at.Disk = &part.Node{Type: 1, ModifiedS: 100, Permissions: 0o755}
	}
	return row
}

// A directory that is gone is copied with all below it, by one step.
func TestADirectoryIsCopiedWithAllBelow(t *testing.T) {
	all := []*join.Row{calmDirectory("d", 3), calm("d/a", 3, 1), calm("d/b", 3, 2), calm("e", 3, 3)}
	for _, row := range all[:3] {
		row.At[1].Disk = nil
	}
	told := outlookOf(folderOf("send-receive", "send-receive", "send-receive"), all)
	if told.Lost != 3 || len(told.Plans) != 1 {
		t.Fatalf("%+v", told)
	}
	plan := told.Plans[0]
	if fmt.Sprint(plan.Names) != "[d]" || plan.Below != 2 || !reflect.DeepEqual(plan.Steps, []Step{{Act: Copy, Device: idOf(1), From: idOf(0)}}) || !reflect.DeepEqual(plan.Goal.Devices, at(0, 2)) {
		t.Errorf("%+v", plan)
	}
}

// A file in place of a directory is saved before the directory is copied over it, and so is what stands below a directory that goes.
func TestWhatGoesForADirectoryIsSaved(t *testing.T) {
	all := []*join.Row{calmDirectory("d", 3), calm("d/a", 3, 1)}
	all[0].At[1].Disk = &part.Node{ModifiedS: 200, Size: 4, Contents: []part.Content{{Size: 4, BlockSize: 1 << 17, Hash: part.Hash{77}}}, Permissions: 0o644}
	all[1].At[1].Disk = nil
	told := outlookOf(folderOf("send-receive", "send-receive", "send-receive"), all)
	for _, plan := range told.Plans {
		if plan.Names[0] == "d" && plan.Goal != nil && plan.Goal.Type == 2 {
			if !reflect.DeepEqual(plan.Steps, []Step{{Act: Save, Device: idOf(1)}, {Act: Delete, Device: idOf(1)}, {Act: Copy, Device: idOf(1), From: idOf(0)}}) {
				t.Errorf("%+v", plan)
			}
			return
		}
	}
	t.Errorf("the directory has no plan: %+v", told.Plans)
}

// Many names that hang together have a plan, too: all of them the same.
func TestManyNamesThatHangTogether(t *testing.T) {
	for _, change := range []func(*join.Row){
		func(row *join.Row) { row.At[1].Disk = nil },
		func(row *join.Row) { row.At[1].Disk.Contents[0].Hash = part.Hash{99} },
	} {
		var all []*join.Row
		for place := 0; place < 30; place++ {
			row := calm(fmt.Sprintf("n%02d", place), 3, 1) // all have the same bytes
			change(row)
			all = append(all, row)
		}
		told := outlookOf(folderOf("send-receive", "send-receive", "send-receive"), all)
		if len(told.Plans) != 1 || told.Plans[0].Count != 30 || told.Plans[0].Goal == nil || !reflect.DeepEqual(told.Plans[0].Goal.Devices, at(0, 2)) {
			t.Errorf("%+v", told.Plans)
		}
	}
}

// A name that comes to one of several ends comes to one of them alone by its plan: what was modified last.
func TestAPlanDecidesWhatTheOrderWould(t *testing.T) {
	tried := 0
	for seed := int64(0); seed < 200 && tried < 3; seed++ {
		for _, name := range outlookOf(folderOf(kindsOf(seed, 3)...), draw(seed, 3, 2)).Listed {
			if name.Fate != Depends || name.Plan == nil {
				continue
			}
			tried++
			if name.Plan.Goal == nil || len(name.Plan.Steps) == 0 {
				t.Errorf("seed %d, %s: %+v", seed, name.Name, name.Plan)
			}
		}
	}
	if tried < 3 {
		t.Error("too few names were tried:", tried)
	}
}

// Of a name of which nothing is foretold each thing that stands on some disk is saved, once.
func TestWhatIsNotKnownIsSaved(t *testing.T) {
	row := calm("a", 3, 1)
	row.At[1].Disk.Contents[0].Hash = part.Hash{99}
	row.At[2].Own.Invalid = true // of a local change whose version isn't told
	told := outlookOf(folderOf("send-receive", "send-receive", "receive-only"), []*join.Row{row})
	if told.NotKnown != 1 || len(told.Plans) != 1 || told.Plans[0].Goal != nil || !reflect.DeepEqual(told.Plans[0].Steps, []Step{{Act: Save, Device: idOf(0)}, {Act: Save, Device: idOf(1)}}) {
		t.Errorf("%+v, %+v", told, told.Plans)
	}
}
