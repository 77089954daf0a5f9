package join

import (
	"encoding/json"
	"fmt"
	"reflect"
	"strings"
	"testing"
	"time"

	"syncthing-audit/choice"
	"syncthing-audit/limits"
	"syncthing-audit/part"
)

// named gives devices that share the folder docs, each with a name for each of the others.
func named(with map[byte]string, change func(devices []*Device)) []*Device {
	devices := sharing(with, func(device byte, folder *part.Folder) {
		folder.Label = "Documents"
		for place := range folder.Sharing {
			folder.Sharing[place].Name = "called " + folder.Sharing[place].Device[:7]
		}
	})
	for place, device := range devices {
		device.Head.Name = "own " + fmt.Sprint(place)
		device.Number = uint64(place + 1)
	}
	change(devices)
	return devices
}

// What is refused or left out of a plan is told whole: of which kind it is, of which folder and device, what that is called, and why.
func TestEachRefusalOfAPlanIsToldWhole(t *testing.T) {
	one, two, three := deviceID(1), deviceID(2), deviceID(3)
	of := func(kind, device, name, why string) Refusal {
		return Refusal{Kind: kind, Folder: "docs", Label: "Documents", Device: device, Name: name, Why: why}
	}
	first := func(devices []*Device) *part.Folder { return &devices[0].Head.Folders[0] }
	wentBack := of(part.Moment, one, "own 0", "2 knows of its change 6, and here, where it was read no earlier, its last one is 5: its index went back, as after an older home "+
		"was put in its place, or a copy of an older one was read")
	wentBack.WentBack = true
	for _, row := range []struct {
		why      string
		with     map[byte]string
		change   func(devices []*Device)
		refusals []Refusal
		leftOut  []Refusal
	}{
		{"in order", map[byte]string{1: "2", 2: "1"}, func([]*Device) {}, nil, nil},
		{"a part is missing, and two devices name it", map[byte]string{1: "23", 2: "13"}, func([]*Device) {},
			[]Refusal{of(part.Absent, three, "called AAAAAAA", "it shares the folder, and no home or part of it is given ("+three+"). If it is an observer, which keeps no files, give --observer and this id")}, nil},
		{"it isn't asked", map[byte]string{1: "3"}, func(devices []*Device) { devices[0].Head.Wire = part.NewWire(deviceID(9), false) },
			[]Refusal{of(part.Absent, three, "called AAAAAAA", "it shares the folder, and isn't among the devices that were asked ("+three+")")}, nil},
		{"it isn't shared back", map[byte]string{1: "2", 2: ""}, func([]*Device) {},
			[]Refusal{of(part.Unshared, two, "own 1", "it doesn't share the folder with device own 0 (AAAAAAA), which shares it with this one")}, nil},
		{"its part hasn't the folder", map[byte]string{1: "2", 2: "1"}, func(devices []*Device) { devices[1].Head.Folders, devices[1].Head.Others = nil, []part.Other{} },
			[]Refusal{of(part.Unshared, two, "called AAAAAAA", "it doesn't share the folder; device own 0 (AAAAAAA) shares it with this one")}, nil},
		{"it is encrypted there", map[byte]string{1: "2", 2: "1"}, func(devices []*Device) { first(devices).Kind = part.KindEncrypted },
			[]Refusal{of(part.Encrypted, one, "own 0", "the folder is encrypted there: 'observe' with --passwords reads it")}, nil},
		{"one device says that it is encrypted on two others, which don't", map[byte]string{1: "23", 2: "13", 3: "12"}, func(devices []*Device) {
			first(devices).Sharing[0].Encrypted, first(devices).Sharing[1].Encrypted = true, true
		}, []Refusal{of(part.Encrypted, one, "own 0", "it says that it shares the folder encrypted with device own 1 (AAAAAAA), and by that one's word it isn't encrypted there: which of the two is right isn't known")}, nil},
		{"it is shared encrypted", map[byte]string{1: "2", 2: "1"}, func(devices []*Device) { first(devices).Sharing[0].Encrypted = true },
			[]Refusal{of(part.Encrypted, two, "own 1", "the folder is shared encrypted with it by device own 0 (AAAAAAA), by that one's word, and isn't encrypted there by its own: which of the two is right isn't known")}, nil},
		{"an earlier moment", map[byte]string{1: "2", 2: "1"}, func(devices []*Device) {
			first(devices).Views = []part.View{{Device: deviceID(9), IndexID: 2, Max: 99}, {Device: two, IndexID: 7, Max: 99}, {Device: two, IndexID: 2, Max: 6}}
			devices[0].Head.Made = devices[1].Head.Made.Add(time.Second)
		}, nil, []Refusal{of(part.Moment, two, "own 1", "it is of an earlier moment than 1, which knows of its change 6, and here its last one is 5. To compare all "+
			"names, stop both devices, and make the part of this one anew")}},
		{"an earlier moment of the first one", map[byte]string{1: "2", 2: "1"}, func(devices []*Device) {
			devices[1].Head.Folders[0].Views = []part.View{{Device: one, IndexID: 1, Max: 6}}
			devices[1].Head.Made = devices[0].Head.Made.Add(time.Second)
		}, nil, []Refusal{of(part.Moment, one, "own 0", "it is of an earlier moment than 2, which knows of its change 6, and here its last one is 5. To compare all "+
			"names, stop both devices, and make the part of this one anew")}},
		{"an index that went back: its part isn't the earlier one", map[byte]string{1: "2", 2: "1"}, func(devices []*Device) {
			devices[1].Head.Folders[0].Views = []part.View{{Device: one, IndexID: 1, Max: 6}}
		}, nil, []Refusal{wentBack}},
		{"an index that went back: its home is read now", map[byte]string{1: "2", 2: "1"}, func(devices []*Device) {
			devices[1].Head.Folders[0].Views = []part.View{{Device: one, IndexID: 1, Max: 6}}
			devices[1].Head.Made, devices[0].IsHome = devices[0].Head.Made.Add(time.Hour), true
		}, nil, []Refusal{wentBack}},
		{"a folder of another id by chance", map[byte]string{1: "2", 2: "1", 3: ""}, func([]*Device) {}, nil,
			[]Refusal{of(part.Unshared, three, "own 2", "it shares its folder of this id with nobody: it is another folder than that of device own 0 (AAAAAAA)")}},
		{"two groups", map[byte]string{1: "2", 2: "1", 3: "4", 4: "3", 5: "4"}, func([]*Device) {}, []Refusal{
			of(part.Unshared, one, "own 0", "it doesn't share the folder with device own 2 (AAAAAAA), not even by way of others: its own is another folder of the same id"),
			of(part.Unshared, two, "own 1", "it doesn't share the folder with device own 2 (AAAAAAA), not even by way of others: its own is another folder of the same id"),
			of(part.Unshared, deviceID(5), "own 4", "it shares the folder with device own 3 (AAAAAAA), which doesn't share it with this one")}, nil},
		{"no id", map[byte]string{1: "2", 2: "1"}, func(devices []*Device) {
			first(devices).ID, devices[1].Head.Folders[0].ID = "a b", "a b"
		}, []Refusal{{Kind: part.OddName, Folder: "a b", Label: "Documents", Why: "its id isn't 1 to 64 ASCII letters, digits, '-' and '_'"}}, nil},
	} {
		plan, err := NewPlan(named(row.with, row.change), nil)
		if err != nil || !reflect.DeepEqual(plan.Refusals, row.refusals) || !reflect.DeepEqual(append(plan.LeftOut, plan.Earlier...), row.leftOut) {
			t.Errorf("%s: %v\n%+v\n%+v, %+v", row.why, err, plan.Refusals, plan.LeftOut, plan.Earlier)
		}
	}
	for count := limits.MostDevices; count <= limits.MostDevices+1; count++ {
		folder, plan := &Folder{ID: "docs", Members: make([]Member, count)}, &Plan{}
		plan.checkWhole(folder)
		if (len(plan.Refusals) > 0) != (count > limits.MostDevices) {
			t.Errorf("%d devices: %v", count, plan.Refusals)
		}
	}
}

// What can't be audited together at all is told with both sides in their places.
func TestEachReasonWhyPartsDoNotGoTogether(t *testing.T) {
	observed := func(look string) func(device *Device) {
		return func(device *Device) {
			device.Head.Wire, device.Head.Look = part.NewWire(observerID, false), &part.Look{ID: look}
		}
	}
	looked := func(device *Device) { device.Head.Look = &part.Look{ID: "id"} }
	same := func(*Device) {}
	for told, change := range map[string][2]func(device *Device){
		"refused: 1 and 2 are both of device own 0 (AAAAAAA): give one of them": {same, func(device *Device) { device.Head.Device = deviceID(1) }},
		"refused: 1 and 2 are of one device number, 1":                          {same, func(device *Device) { device.Number = 1 }},
		"refused: 1 has the names that begin with a, and 2 has all names: make all parts with the same --names": {
			func(device *Device) { device.Head.Names = choice.Names{Prefix: "a"} }, same},
		"refused: 1 is of two looks, as at a running device, and 2 of one: make all parts in the same way":   {looked, same},
		"refused: 2 is of two looks, as at a running device, and 1 of one: make all parts in the same way":   {same, looked},
		"refused: 2 and 1 are of two runs of 'observe', which may be of two moments: observe all in one run": {observed("a"), observed("b")},
		"refused: one of 2 and 1 is made by two looks at the device itself, and the other one over the wire: observe both, or stop the first device and make " +
			"its part by 'part'": {observed("a"), looked},
		"refused: folder docs (Documents), device own 1 (AAAAAAA): its directory /srv/docs is that of device own 0 (AAAAAAA) for folder docs (Documents), too. A copied home's " +
			"config.xml is to name the directory of the copied folder": {same, func(device *Device) {
			device.Head.Folders[0].Directory, device.Head.Folders[0].Path = deviceID(1), "/srv/docs"
		}},
	} {
		devices := named(map[byte]string{1: "2", 2: "1"}, func(devices []*Device) { change[0](devices[0]); change[1](devices[1]) })
		if _, err := NewPlan(devices, nil); err == nil || err.Error() != told {
			t.Errorf("%v,\nnot %s", err, told)
		}
	}
}

// Who asks for a label is told all ids with it, rising.
func TestALabelOfSeveralFolders(t *testing.T) {
	labels := map[string]string{"e": "Docs", "c": "Docs", "a": "Docs", "d": "Docs", "b": "Pics"}
	const told = "no folder here has the id Docs, which is a label: the id is a, or c, or d, or e"
	if err := CheckWanted(labels, []string{"a", "Docs"}); err == nil || err.Error() != told {
		t.Error(err)
	}
	const all = "no folder here has the id f: there are a (Docs), b (Pics), c (Docs), d (Docs), e (Docs)"
	if err := CheckWanted(labels, []string{"f"}); err == nil || err.Error() != all {
		t.Error(err)
	}
}

// A member that is saved and read is as it was.
func TestEachFieldOfAMemberIsSaved(t *testing.T) {
	for _, unseen := range []Unseen{{}, {Standing: 1}, {Unread: 2}} {
		head := &part.Head{Device: deviceID(1)}
		member := Member{Device: &Device{Head: head, Number: head.Number(), From: "a"}, About: &part.Folder{ID: "docs"}, Near: 1, Temporary: &part.Count{Names: 2},
			Linked: &part.Count{Names: 3}, ToIgnore: 4, Unseen: unseen}
		text, err := json.Marshal(member)
		var read Member
		if err == nil {
			err = json.Unmarshal(text, &read)
		}
		if err != nil || !reflect.DeepEqual(read, member) || strings.Contains(string(text), "Unseen") != (unseen != Unseen{}) {
			t.Errorf("%v: %s", err, text)
		}
	}
}

// Of two claims one wins, and never both: what is on top, and else what is later.
func TestOneOfTwoClaimsWins(t *testing.T) {
	low, high, other := [][2]uint64{{1, 1}}, [][2]uint64{{1, 2}}, [][2]uint64{{2, 1}}
	for _, row := range []struct{ wins, loses Claim }{
		{Claim{Version: high, Seconds: 1}, Claim{Version: low, Seconds: 9}},
		{Claim{Version: high, Deleted: true}, Claim{Version: low, Seconds: 9}},
		{Claim{Version: low}, Claim{Version: other, Seconds: 9, Deleted: true}},
		{Claim{Version: low, Seconds: 2}, Claim{Version: other, Seconds: 1, Nanoseconds: 9}},
		{Claim{Version: low, Nanoseconds: 2}, Claim{Version: other, Nanoseconds: 1}},
	} {
		if !row.wins.Wins(row.loses) || row.loses.Wins(row.wins) || row.wins.IsOfOneVersion(row.loses) {
			t.Errorf("%+v, %+v", row.wins, row.loses)
		}
	}
	if same := (Claim{Version: low}); same.Wins(same) || !same.IsOfOneVersion(same) || (Claim{Version: high}).IsOfOneVersion(same) || same.IsOfOneVersion(Claim{Version: high}) {
		t.Error("a claim wins against itself, or isn't of its own version")
	}
}

// The time between the looks of several devices, whose clocks are seconds or days apart: from the last first look to the first second one.
func TestLooksOfDevicesWithOtherClocks(t *testing.T) {
	at := func(seconds int64) time.Time { return time.Unix(1000000+seconds, 0) }
	for _, row := range []struct {
		why        string
		at, ended  []int64 // of each device; 0 for one that is stopped
		still      time.Duration
		hasAnswer  bool
		isNotMoved bool
	}{
		{"one device", []int64{1}, []int64{9}, 8 * time.Second, true, true},
		{"at one moment", []int64{5}, []int64{5}, 0, true, true},
		{"the last first look and the first second one", []int64{1, 4, 3}, []int64{20, 10, 9}, 5 * time.Second, true, true},
		{"a stopped one has none", []int64{3, 0, 1}, []int64{9, 0, 20}, 6 * time.Second, true, true},
		{"a clock that is a day ahead", []int64{1, 86400}, []int64{10, 86410}, 0, false, true},
		{"a clock that is a second ahead, and looks that are longer apart", []int64{1, 3}, []int64{10, 12}, 7 * time.Second, true, true},
		{"none ran", []int64{0, 0}, []int64{0, 0}, 0, true, false},
	} {
		folder := &Folder{}
		for place := range row.at {
			head := &part.Head{}
			if row.at[place] != 0 {
				head.Look = &part.Look{At: at(row.at[place]), Ended: at(row.ended[place])}
			}
			folder.Members = append(folder.Members, Member{Device: &Device{Head: head}})
		}
		still, err := folder.Still()
		if still != row.still || (err == nil) != row.hasAnswer || err != nil && err != ErrClocks || folder.IsLive() != row.isNotMoved {
			t.Errorf("%s: %v, %v", row.why, still, err)
		}
	}
}

// What observers are known by is taken out of all that devices say of each other, and only that.
func TestObserversAreTakenOutEverywhere(t *testing.T) {
	devices := []*Device{partOf(0, true, false, 5, 5), partOf(1, false, false, 5, 5)}
	second := deviceID(8)
	for _, device := range devices {
		folder := &device.Head.Folders[0]
		folder.Sharing = append(folder.Sharing, part.Sharing{Device: second, Name: "watcher"})
		folder.PausedDevices = []string{ids[0], observerID, ids[1], second}
		device.Head.Others = []part.Other{{ID: "x", Devices: []string{observerID, ids[0], second}}, {ID: "y"}}
	}
	told := takeOutObservers(devices, []string{second})
	if !reflect.DeepEqual(told, []Observer{{"docs", observerID, ""}, {"docs", second, "watcher"}}) {
		t.Errorf("%v", told)
	}
	for place, device := range devices {
		folder := device.Head.Folders[0]
		if !reflect.DeepEqual(folder.Sharing, []part.Sharing{{Device: ids[1-place]}}) || !reflect.DeepEqual(folder.PausedDevices, ids) ||
			!reflect.DeepEqual(device.Head.Others, []part.Other{{ID: "x", Devices: ids[:1]}, {ID: "y"}}) {
			t.Errorf("%+v, %+v", folder, device.Head.Others)
		}
	}
	if told := takeOutObservers([]*Device{partOf(1, false, false, 5, 5)}, nil); told != nil {
		t.Errorf("no observer is known: %v", told)
	}
}

// A part makes no observer of a device that has a part itself, or of which another one has records: its absence is told, and it is compared.
func TestAPartMakesNoObserverOfADeviceThatKeepsFiles(t *testing.T) {
	third := deviceID(7)
	for _, row := range []struct {
		observer string
		heard    int64 // of the third device, which has no part
		known    []string
		refused  string
	}{
		{observerID, 9, nil, part.Absent}, {ids[1], 9, nil, "absent absent"}, {third, 9, nil, "absent absent"}, {third, 0, nil, part.Absent}, {observerID, 9, []string{third}, ""}, {third, 9, []string{third}, part.Absent},
	} {
		one, two := partOf(0, true, false, 5, 5), partOf(1, false, false, 5, 5)
		one.Head.Wire.Observer = row.observer
		folder := &two.Head.Folders[0]
		folder.Sharing = append(folder.Sharing, part.Sharing{Device: third})
		folder.Views = append(folder.Views, part.View{Device: third, IndexID: 3, Max: row.heard})
		plan, err := NewPlan([]*Device{one, two}, nil, row.known...)
		if err != nil || refused(plan) != row.refused || len(plan.Folders) != 1 || len(plan.Folders[0].Members) != 2 {
			t.Errorf("%+v: %v, %s, %+v", row, err, refused(plan), plan.Folders)
		}
	}
}

// A name moves if anything of it changed at a member. Nobody is unheard of a name that a member hasn't, nor of its own.
func TestWhatMovesAndWhatIsNotHeardOf(t *testing.T) {
	for isMoving, at := range map[bool][]*part.Name{false: {nil, {}, {Out: []part.LeftOut{{}}}}, true: {nil, {}, {Moved: []string{part.MovedDisk}}}} {
		if row := (&Row{At: at}); row.IsMoving() != isMoving {
			t.Errorf("%v: %v", at, row.IsMoving())
		}
	}
	plan, err := NewPlan([]*Device{partOf(0, false, false, 5, 5), partOf(1, false, false, 5, 5)}, nil, observerID)
	if err != nil {
		t.Fatal(err)
	}
	folder, row := plan.Folders[0], &Row{At: []*part.Name{{Own: record(3, 0)}, nil}}
	for knower := 0; knower < 2; knower++ {
		for of := 0; of < 2; of++ {
			if folder.IsUnheard(row, knower, of) != (knower == 1 && of == 0) {
				t.Errorf("%d of %d: %v", knower, of, folder.IsUnheard(row, knower, of))
			}
		}
	}
}

// Over the wire, what is left out or moved stays as it is told; what isn't as recorded waits, without what views say.
func TestWhatIsFilledOfADisk(t *testing.T) {
	member := &Member{Device: partOf(0, true, false, 5, 5)}
	for _, told := range []part.Name{{Own: record(3, 1), Out: []part.LeftOut{{Kind: part.Unknown}}}, {Moved: []string{part.MovedRecord}}} {
		kept := told
		member.fillDisk(&told)
		if !reflect.DeepEqual(told, kept) {
			t.Errorf("%+v, not %+v", told, kept)
		}
	}
	waiting := part.Name{Name: "a", Own: record(3, 0), Views: []part.Seen{{Record: record(2, 0)}}}
	member.fillDisk(&waiting)
	if !reflect.DeepEqual(waiting, part.Name{Name: "a", Moved: []string{part.MovedUnscanned}, Waits: &part.Name{Name: "a", Own: record(3, 0)}}) {
		t.Errorf("%+v, %+v", waiting, waiting.Waits)
	}
}

// If a home is left out of which it isn't known whose it is, a device that shares the folder may be that one: it isn't told that nothing of it is given.
func TestADeviceOfWhichNoHomeCouldBeRead(t *testing.T) {
	three := deviceID(3)
	for told, unreached := range map[string]map[string]string{
		"no home or part of it is given (" + three + "). If":                {},
		"no home or part of it is given (" + three + "). If it":             {deviceID(4): "no route"},
		"no home or part that could be read is its own (" + three + "). If": {"": "permission denied"},
		"no route": {three: "no route", "": "permission denied"},
	} {
		plan, err := NewPlanWithout(unreached, sharing(map[byte]string{1: "23", 2: "13"}, unchanged), nil)
		if err != nil || len(plan.Refusals) != 1 || !strings.Contains(plan.Refusals[0].Why, told) {
			t.Errorf("%v: %+v, %v", unreached, plan, err)
		}
	}
}
