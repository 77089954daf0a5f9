package join

import (
	"strings"
	"testing"

	"syncthing-audit/part"
)

// A folder that is paused at a device, and whose directory isn't there, is left out there: it isn't refused, also where others share it with
// that device. Who asks for other folders isn't told of it.
func TestFoldersThatAreAway(t *testing.T) {
	const why = "it is paused there, and there is no /media/docs: mount its disk, and audit again"
	for _, one := range []struct {
		why, with string
		away      string
		wanted    []string
		told      string
		folders   int
	}{
		{"others have it", "12", "there is no /media/docs", nil, "left-out:absent", 1},
		{"others have it, and it is asked for", "12", "there is no /media/docs", []string{"docs"}, "left-out:absent", 1},
		{"it is there and wasn't asked for", "12", "", nil, "unshared", 1},
		{"no other device has it", "", "there is no /media/docs", nil, "left-out:absent", 0},
	} {
		devices := sharing(map[byte]string{1: one.with, 2: "12"}, unchanged)
		devices[1].Head.Folders = nil
		devices[1].Head.Others = []part.Other{{ID: "docs", Devices: []string{deviceID(1)}, Away: one.away}}
		if one.with == "" {
			devices[0].Head.Folders = nil
		}
		plan, err := NewPlan(devices, one.wanted)
		if err != nil {
			t.Fatal(one.why, err)
		}
		if told := refused(plan); told != one.told || len(plan.Folders) != one.folders {
			t.Errorf("%s: %s, %d folders", one.why, told, len(plan.Folders))
		}
		if len(plan.LeftOut) > 0 && (plan.LeftOut[0].Why != why || !plan.IsLeftOut("docs", deviceID(2)) || plan.IsLeftOut("docs", deviceID(1))) {
			t.Errorf("%s: %v", one.why, plan.LeftOut)
		}
	}
	devices := sharing(map[byte]string{1: "1", 2: "2"}, unchanged)
	devices[1].Head.Others = []part.Other{{ID: "music", Away: "there is no /media/music"}}
	plan, err := NewPlan(devices, []string{"docs"})
	if err != nil || strings.Contains(refused(plan), part.Absent) {
		t.Errorf("another one is asked for: %v, %s", err, refused(plan))
	}
}

// Where Syncthing stopped such a folder, or its part is of another moment than the rest, that is refused.
func TestFoldersThatAreRefusedAway(t *testing.T) {
	for told, away := range map[string]part.Other{
		"absent": {Away: "there is no /media/docs", IsStopped: true}, "left-out:absent": {Away: "there is no /media/docs"}, "moment": {Apart: "it changed meanwhile"},
	} {
		devices := sharing(map[byte]string{1: "12", 2: "12"}, unchanged)
		devices[1].Head.Folders = nil
		away.ID, away.Devices = "docs", []string{deviceID(1)}
		devices[1].Head.Others = []part.Other{away}
		plan, err := NewPlan(devices, nil)
		if err != nil || refused(plan) != told || !plan.IsLeftOut("docs", deviceID(2)) {
			t.Errorf("%v: %s, not %s", err, refused(plan), told)
		}
	}
}

// What to do about a folder that is away: one whose marker alone is gone isn't told to be mounted, and is audited before Syncthing takes what is missing
// there for deleted.
func TestWhatToDoAboutAFolderThatIsAway(t *testing.T) {
	const gone, marked = "there is no /media/docs", "/media/docs has no .stfolder, by which Syncthing knows the folder"
	const again = "other things are there. If its disk is mounted, pause the folder, put the marker back, and audit again before the folder goes on: " +
		"what is missing there, Syncthing then deletes elsewhere. If it isn't mounted, mount it, and audit again"
	for told, other := range map[string]part.Other{
		"it is paused there, and " + gone + ": mount its disk, and audit again":                                                                                   {Away: gone},
		gone + ": mount its disk, and audit again. Syncthing has stopped the folder there, unless it runs in a container: then --map says where its directory is": {Away: gone, IsStopped: true},
		"it is paused there, and " + marked + ": " + again:                                                                                                        {Away: marked, IsUnmarked: true},
		marked + ": " + again + ". Syncthing has stopped the folder there":                                                                                        {Away: marked, IsStopped: true, IsUnmarked: true},
		"it changed meanwhile": {Away: marked, IsUnmarked: true, Apart: "it changed meanwhile"},
	} {
		if is := WhyAway(other); is != told {
			t.Errorf("%q, not %q", is, told)
		}
	}
}
