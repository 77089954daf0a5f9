package outlook

import (
	"fmt"
	"reflect"
	"testing"

	"syncthing-audit/advice"
	"syncthing-audit/forecast"
	"syncthing-audit/join"
	"syncthing-audit/part"
)

// deletedDirectory gives a directory with a file below it, that the first of three devices deleted.
func deletedDirectory() []*join.Row {
	all := []*join.Row{directory("d"), calm("d/in", 3, 1)}
	for _, row := range all {
		own := *row.At[0].Own
		own.Deleted, own.Content, own.Version, own.Sequence = true, nil, [][2]uint64{{1, 5}, {9, 1}}, 12
		row.At[0].Own, row.At[0].Disk = &own, nil
	}
	return all
}

// What .stignore keeps out with (?d) on a device goes with the directory, and is lost: it is to be saved there. It goes also where the directory stays for what is kept
// out without that.
func TestWhatGoesWithADirectoryIsLost(t *testing.T) {
	for _, stays := range []bool{false, true} {
		folder := folderOf("send-receive", "send-receive", "send-receive")
		for _, member := range []int{1, 2} {
			folder.Members[member].Deletable = &part.Deletable{In: []part.DeletableIn{{Directory: "d", Count: part.Count{Names: int64(member), Bytes: 9}}}}
		}
		if stays {
			folder.Members[2].Holding = &part.Holding{Names: []part.Bytes{"d"}}
		}
		told := outlookOf(folder, deletedDirectory())
		name := told.Listed[0]
		lost := lostIgnored(name.Loses)
		if told.Lost != 1 || name.Name != "d" || len(name.Kept) != map[bool]int{false: 0, true: 1}[stays] || lost != "1 1/9, 2 2/9, " || shown(told.Plans) != "d: save on 1, save on 2" {
			t.Errorf("%v: %v, %+v: %s; %s", stays, countsOf(told), name, lost, shown(told.Plans))
		}
	}
	folder := folderOf("send-receive", "send-only", "send-receive")
	folder.Members[1].Deletable = &part.Deletable{In: []part.DeletableIn{{Directory: "d", Count: part.Count{Names: 1, Bytes: 9}}}}
	if told := outlookOf(folder, deletedDirectory()); told.Lost != 0 {
		t.Errorf("a device that only sends deletes it: %v", countsOf(told))
	}
}

func lostIgnored(loses []Thing) string {
	told := ""
	for _, thing := range loses {
		if thing.Ignored != nil && reflect.DeepEqual(thing.Versions, []Versions{{thing.Devices[0], HaveUntold}}) {
			told += fmt.Sprintf("%d %d/%d, ", memberOf(thing.Devices[0]), thing.Ignored.Names, thing.Ignored.Bytes)
		}
	}
	return told
}

// A step that takes a directory away takes what .stignore keeps out in it and below: it is saved first, of whichever kind it is.
func TestAStepSavesWhatIsIgnored(t *testing.T) {
	for _, at := range []struct{ name, below int }{{1, 0}, {2, 0}, {0, 1}, {0, 2}, {0, 0}} {
		name := func(called string, what int) forecast.Name {
			made := forecast.Name{Name: called, Own: make([]*forecast.Record, 2), Views: [][]*forecast.Record{{nil, nil}, {nil, nil}}, Disk: make([]*forecast.Node, 2)}
			switch what {
			case 1:
				made.Holds = 1 << 1
			case 2:
				made.Ignored = []forecast.Ignored{{}, {Names: 1}}
			}
			return made
		}
		group := &forecast.World{Devices: folderDevices(2), Names: []forecast.Name{name("a", at.name), name("a/b", at.below), name("ab", 1)}}
		group.Names[0].Disk[1] = &forecast.Node{Type: forecast.Directory}
		plan := planOf(group, hand{goal: advice.Goal{Name: "a", Node: &forecast.Node{Type: forecast.File}}}, &advice.Plan{Steps: []advice.Step{{Act: advice.Delete, Device: 1, Name: "a"}}}, nil)
		isSaved := len(plan.Steps) == 2 && plan.Steps[0] == (Step{Act: Save, Device: group.Devices[1].ID})
		if isSaved != (at.name+at.below > 0) {
			t.Errorf("%+v: %+v", at, plan.Steps)
		}
	}
}
