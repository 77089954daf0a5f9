package outlook

import (
	"testing"

	"syncthing-audit/forecast"
	"syncthing-audit/forecast/read"
	"syncthing-audit/join"
	"syncthing-audit/part"
)

// The first device alone recorded a change, and its bytes are harmed there: what the others have is the best that is left, and it isn't called replaced.
func TestWhatAHarmedChangeReplacedIsLost(t *testing.T) {
	for why, harm := range map[string]func(*part.Name){
		"emptied under a later time": func(at *part.Name) { cut(at.Disk, 0, 50) },
		"emptied":                    func(at *part.Name) { cut(at.Disk, 0, 0) },
		"cut short":                  func(at *part.Name) { cut(at.Disk, 2, 0) },
		"rotten":                     func(at *part.Name) { at.Disk.Contents[0].Hash = part.Hash{66} },
		"missing":                    func(at *part.Name) { at.Disk = nil },
	} {
		row := calm("a", 3, 1)
		changed(row, 0, 2, 300)
		harm(row.At[0])
		told := outlookOf(folderOf("send-receive", "send-receive", "send-receive"), []*join.Row{row})
		if told.Lost != 1 || len(told.Listed[0].Loses) != 1 || shown(told.Plans) != "a: save on 1" {
			t.Errorf("%s: %v %s", why, countsOf(told), shown(told.Plans))
		}
	}
	row := calm("a", 3, 1)
	changed(row, 0, 2, 300)
	if told := outlookOf(folderOf("send-receive", "send-receive", "send-receive"), []*join.Row{row}); told.Right != 1 || len(told.Plans) > 0 {
		t.Errorf("sound: %v %s", countsOf(told), shown(told.Plans))
	}
}

// A name that is missing on all disks, and that nobody recorded as deleted, doesn't come right: a deletion that no scan has seen goes to all.
func TestMissingOnAllDisks(t *testing.T) {
	gone := calm("a", 3, 1)
	for _, at := range gone.At {
		at.Disk = nil
	}
	if told := outlookOf(folderOf("send-receive", "send-receive", "send-receive"), []*join.Row{gone}); told.Changed != 1 {
		t.Errorf("%v", countsOf(told))
	}
	deleted := *gone.At[1].Own
	deleted.Deleted, deleted.Content, deleted.Version, deleted.Sequence = true, nil, [][2]uint64{{2, 5}, {9, 1}}, 12
	gone.At[1].Own = &deleted
	if told := outlookOf(folderOf("send-receive", "send-receive", "send-receive"), []*join.Row{gone}); told.Changed != 0 {
		t.Errorf("deleted: %v", countsOf(told))
	}
}

// What a recorded empty file replaces is told to be lost, and saved: a scan may have taken a harmed file for a change.
func TestWhatAnEmptyFileReplacesIsLost(t *testing.T) {
	row := calm("a", 3, 1)
	changed(row, 0, 2, 300)
	cut(row.At[0].Disk, 0, 0)
	*row.At[0].Own.Content = row.At[0].Disk.Contents[0]
	told := outlookOf(folderOf("send-receive", "send-receive", "send-receive"), []*join.Row{row})
	if told.Lost != 1 || shown(told.Plans) != "a: save on 1" {
		t.Errorf("%v %s", countsOf(told), shown(told.Plans))
	}
}

// What other recorded bytes replace under the very time is told to be lost, and saved: a scan may have taken rot for a change. Under another time they are an
// edit, and the same bytes lose nothing.
func TestWhatOtherBytesUnderOneTimeReplaceIsLost(t *testing.T) {
	for _, row := range []struct {
		hash  byte
		time  int64
		lost  int64
		plans string
	}{{2, 100, 1, "a: save on 0"}, {2, 101, 0, ""}, {1, 100, 0, ""}, {1, 101, 0, ""}} {
		name := calm("a", 3, 1)
		changed(name, 1, row.hash, row.time)
		told := outlookOf(folderOf("send-receive", "send-receive", "send-receive"), []*join.Row{name})
		if told.Lost != row.lost || shown(told.Plans) != row.plans {
			t.Errorf("%+v: %v %s", row, countsOf(told), shown(told.Plans))
		}
	}
}

// Where something is on no disk at some end and isn't told to be lost, something came after it: a deletion, or what stands there at that end.
func TestNothingIsReplacedByNothing(t *testing.T) {
	gone := 0
	for seed := int64(0); seed < 60; seed++ {
		folder, all := folderOf(kindsOf(seed, 2+int(seed)%2)...), draw(seed, 2+int(seed)%2, 5)
		told := map[string]Fate{}
		for _, one := range outlookOf(folder, all).Listed {
			told[string(one.Name)] = one.Fate
		}
		from := read.NewRows(folder)
		for _, row := range all {
			from.Take(row)
		}
		for _, group := range from.World().Groups() {
			group := group
			answer := forecast.New(forecast.Usual).OfGroup(group.Devices, group.Names)
			judge := newJudge(&group, &answer, nil)
			for place := range group.Names {
				name := &group.Names[place]
				if fate := told[name.Name]; fate != "" && fate != Unknown && fate != Lost {
					gone += judge.findReplacedByNothing(t, seed, name)
				}
			}
		}
	}
	if gone < 10 {
		t.Error("too little went:", gone)
	}
}

// findReplacedByNothing finds what goes and has no successor, and counts what goes.
func (j *judge) findReplacedByNothing(t *testing.T, seed int64, name *forecast.Name) int {
	gone := 0
	for _, thing := range thingsNow(anyDevices, name) {
		if j.survives(name.Name, thing) {
			continue
		}
		gone++
		if !j.hasSuccessor(name, thing) {
			t.Errorf("seed %d, %s: %+v goes, and nothing came after it", seed, name.Name, thing)
		}
	}
	return gone
}

// hasSuccessor says whether a record of a deletion, other recorded bytes that stay, or a change on a disk may have come after something.
func (j *judge) hasSuccessor(name *forecast.Name, thing Thing) bool {
	for member, own := range name.Own {
		if own == nil || own.Flag != forecast.Valid {
			continue
		}
		what := name.Disk[member]
		isRecorded := !isOf(own, thing) && !looksHarmed(own, thing) && (own.Deleted || j.survives(name.Name, thingOfRecord(own)))
		if isRecorded || what != nil && !isOf(own, thingOf(what)) && !isRot(own, what) && what.Content.Size+int64(len(what.Target)) > 0 || what != nil && what.Type != own.Type {
			return true
		}
	}
	return false
}
