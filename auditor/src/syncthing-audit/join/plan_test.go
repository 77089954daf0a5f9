package join

import (
	"io"
	"strings"
	"testing"

	"github.com/syncthing/syncthing/lib/protocol"
	"syncthing-audit/choice"
	"syncthing-audit/part"
)

// deviceID gives the device id of a number.
func deviceID(number byte) string {
	return protocol.DeviceID{7: number}.String()
}

// heads is a stream of a head alone.
type heads struct{ head part.Head }

func (h *heads) Head() *part.Head         { return &h.head }
func (h *heads) Next() (part.Line, error) { return part.Line{}, io.EOF }

// sharing gives devices that share the folder 'docs': each entry is a device with the others that it shares with.
func sharing(with map[byte]string, change func(device byte, folder *part.Folder)) []*Device {
	var devices []*Device
	for number := byte(1); number < 10; number++ {
		others, given := with[number]
		if !given {
			continue
		}
		folder := part.Folder{ID: "docs", Kind: "send-receive", IndexID: uint64(number), Max: 5, Directory: deviceID(number)}
		for _, other := range others {
			if id := byte(other - '0'); id != number {
				folder.Sharing = append(folder.Sharing, part.Sharing{Device: deviceID(id)})
			}
		}
		change(number, &folder)
		devices = append(devices, NewDevice(&heads{part.Head{Device: deviceID(number), Folders: []part.Folder{folder}}}, string('0'+rune(number))))
	}
	return devices
}

func unchanged(byte, *part.Folder) {}

// refused gives the kinds of a plan's refusals, and of what it leaves out.
func refused(plan *Plan) string {
	words := []string{}
	for _, one := range plan.Refusals {
		words = append(words, one.Kind)
	}
	for _, one := range plan.LeftOut {
		words = append(words, "left-out:"+one.Kind)
	}
	for _, one := range plan.Earlier {
		words = append(words, "earlier:"+one.Kind)
	}
	return strings.Join(words, " ")
}

func TestSharing(t *testing.T) {
	cases := []struct {
		why     string
		with    map[byte]string
		change  func(byte, *part.Folder)
		refused string
		members int
	}{
		{"all with all", map[byte]string{1: "123", 2: "123", 3: "123"}, unchanged, "", 3},
		{"a chain", map[byte]string{1: "12", 2: "123", 3: "23"}, unchanged, "", 3},
		{"alone", map[byte]string{1: "1"}, unchanged, "", 1},
		{"a part is missing", map[byte]string{1: "12"}, unchanged, part.Absent, 1},
		{"one that two miss is told once", map[byte]string{1: "123", 2: "123"}, unchanged, part.Absent, 2},
		{"not shared back", map[byte]string{1: "12", 2: "2"}, unchanged, part.Unshared, 1},
		{"two that share it with nobody", map[byte]string{1: "1", 2: "2"}, unchanged, "", 2},
		{"one beside two that share it", map[byte]string{1: "1", 2: "23", 3: "23"}, unchanged, "left-out:unshared", 2},
		{"two beside three by way of one that is missing", map[byte]string{1: "12", 2: "12", 3: "39", 4: "49", 5: "59"}, unchanged,
			"unshared unshared absent", 3},
		{"not shared back, by one that others share it with", map[byte]string{1: "12", 2: "23", 3: "23"}, unchanged, part.Unshared, 2},
		{"not shared back by two", map[byte]string{1: "1234", 2: "124", 3: "34", 4: "1234"}, unchanged, part.Unshared, 3},
		{"of three in a circle, each with the next", map[byte]string{1: "2", 2: "3", 3: "1"}, unchanged, "unshared unshared", 1},
		{"encrypted", map[byte]string{1: "12", 2: "12"}, func(device byte, folder *part.Folder) {
			if device == 2 {
				folder.Kind = "encrypted"
			}
		}, part.Encrypted, 1},
		{"encrypted on all", map[byte]string{1: "12", 2: "12"}, func(_ byte, folder *part.Folder) { folder.Kind = "encrypted" }, "encrypted encrypted", 0},
		{"encrypted on one of three", map[byte]string{1: "123", 2: "123", 3: "123"}, func(device byte, folder *part.Folder) {
			if device == 3 {
				folder.Kind = "encrypted"
			}
			for place := range folder.Sharing {
				folder.Sharing[place].Encrypted = device != 3 && folder.Sharing[place].Device == deviceID(3)
			}
		}, part.Encrypted, 2},
		{"encrypted on one that is missing", map[byte]string{1: "123", 2: "123"}, func(_ byte, folder *part.Folder) {
			for place := range folder.Sharing {
				folder.Sharing[place].Encrypted = folder.Sharing[place].Device == deviceID(3)
			}
		}, part.Encrypted, 2},
		{"by way of one alone, on which it is encrypted", map[byte]string{1: "13", 2: "23", 3: "123"}, func(device byte, folder *part.Folder) {
			if device == 3 {
				folder.Kind = "encrypted"
			}
		}, part.Encrypted, 2},
		{"an odd id", map[byte]string{1: "12", 2: "12"}, func(_ byte, folder *part.Folder) { folder.ID = "my docs" }, part.OddName, 0},
	}
	for _, one := range cases {
		plan, err := NewPlan(sharing(one.with, one.change), nil)
		if err != nil {
			t.Fatal(one.why, err)
		}
		members, out := 0, map[string]bool{}
		for _, folder := range plan.Folders {
			if !folder.IsOut {
				members += len(folder.Members)
			} else if out[folder.Own] = true; len(folder.Members) != 1 || folder.Members[0].Head.Device != folder.Own {
				t.Errorf("%s: of one that is out %d devices are compared", one.why, len(folder.Members))
			}
		}
		for _, device := range plan.Devices {
			isIn := false
			for _, folder := range plan.Folders {
				isIn = isIn || !folder.IsOut && folder.Member(device.Head.Device) >= 0
			}
			isDue := !isIn && one.refused != part.OddName && device.Head.Folders[0].Kind != part.KindEncrypted
			if is := out[device.Head.Device]; is != isDue {
				t.Errorf("%s: device %s is compared with its own index: %v", one.why, device.From, is)
			}
		}
		if refused(plan) != one.refused || members != one.members {
			t.Errorf("%s: %q, %d devices", one.why, refused(plan), members)
		}
	}
}

// A device that says that it shares the folder with itself isn't linked to more of the others by that.
func TestNobodyIsLinkedToItself(t *testing.T) {
	plan, err := NewPlan(sharing(map[byte]string{1: "12", 2: "2"}, func(device byte, folder *part.Folder) {
		if device == 2 {
			folder.Sharing = append(folder.Sharing, part.Sharing{Device: deviceID(2)})
		}
	}), nil)
	if err != nil || refused(plan) != part.Unshared || plan.Refusals[0].Device != deviceID(2) {
		t.Errorf("%v, %+v", err, plan.Refusals)
	}
}

// Of two groups with as many devices, which don't share the folder with one another, the one with the first device is compared.
func TestOfTwoGroupsTheFirstIsCompared(t *testing.T) {
	plan, err := NewPlan(sharing(map[byte]string{1: "13", 2: "24", 3: "13", 4: "24"}, unchanged), nil)
	if err != nil || refused(plan) != "unshared unshared" {
		t.Fatalf("%v, %s", err, refused(plan))
	}
	if members := plan.Folders[0].Members; len(members) != 2 || members[0].Head.Device != deviceID(1) || members[1].Head.Device != deviceID(3) {
		t.Errorf("%+v", members)
	}
}

// Where each device shares its folder of an id with nobody, each has one of its own. Where others share theirs, one device may be meant to
// share it, too.
func TestFoldersThatAreSharedWithNobody(t *testing.T) {
	for _, one := range []struct {
		with map[byte]string
		own  string
	}{
		{map[byte]string{1: "1"}, "1"}, {map[byte]string{1: "1", 2: "2", 3: "3"}, "1 2 3"}, {map[byte]string{1: "12"}, "-"},
		{map[byte]string{1: "1", 2: "23", 3: "23"}, "-"}, {map[byte]string{1: "1", 2: "29"}, "-"},
	} {
		plan, err := NewPlan(sharing(one.with, unchanged), nil)
		if err != nil {
			t.Fatal(err)
		}
		own := []string{}
		for _, folder := range plan.Folders {
			if folder.IsOut {
				continue
			}
			if folder.Own == "" {
				own = append(own, "-")
				continue
			}
			own = append(own, folder.Members[0].From)
			if len(folder.Members) != 1 || folder.Members[0].Head.Device != folder.Own {
				t.Errorf("%v: a folder of its own has %d devices", one.with, len(folder.Members))
			}
		}
		if told := strings.Join(own, " "); told != one.own {
			t.Errorf("%v: %s", one.with, told)
		}
	}
}

// A device that shares its folder with nobody doesn't know who shares it with that device. Where a part is without the folder, its device may.
func TestAPartWithoutAFolderThatAnotherDeviceSharesWithNobody(t *testing.T) {
	for _, one := range []struct {
		id      string
		others  []part.Other
		refused string
	}{
		{"docs", []part.Other{{ID: "docs", Devices: []string{deviceID(1)}}}, "left-out:unshared"},
		{"docs", []part.Other{{ID: "docs", Devices: []string{deviceID(9)}}}, "left-out:unshared"},
		{"docs", []part.Other{{ID: "docs"}}, "left-out:unshared"},
		{"docs", nil, "left-out:unshared"},
		{"docs", []part.Other{{ID: "pics", Devices: []string{deviceID(1)}}}, ""},
		{"docs", []part.Other{}, ""},
		{"default", []part.Other{{ID: "default"}}, ""},
		{"default", []part.Other{{ID: "default", Devices: []string{deviceID(1)}}}, "left-out:unshared"},
	} {
		devices := sharing(map[byte]string{1: "1", 2: "2", 3: "3"}, func(_ byte, folder *part.Folder) { folder.ID = one.id })
		devices[1].Head.Folders[0].ID, devices[1].Head.Others = "music", one.others
		plan, err := NewPlan(devices, []string{one.id})
		if err != nil || refused(plan) != one.refused || len(plan.Folders) != 2 {
			t.Errorf("%v: %q, %v", one.others, refused(plan), err)
		}
	}
}

// Whether a device doesn't share a folder, or its part is without it, is told as far as its part says that.
func TestWhyAPartIsWithoutAFolder(t *testing.T) {
	for told, others := range map[string][]part.Other{"it doesn't share the folder, or its part is without it; device ": nil, "it doesn't share the folder; device ": {},
		"its part is without the folder: make it without --folder, or with it for this one, too; device ": {{ID: "docs"}}} {
		devices := sharing(map[byte]string{1: "12", 2: "12"}, unchanged)
		devices[1].Head.Folders[0].ID, devices[1].Head.Folders[0].Sharing, devices[1].Head.Others = "music", nil, others
		plan, err := NewPlan(devices, nil)
		if err != nil || len(plan.Refusals) != 1 || !strings.HasPrefix(plan.Refusals[0].Why, told) {
			t.Errorf("%v, %v", plan.Refusals, err)
		}
	}
}

func TestPartsThatDoNotGoTogether(t *testing.T) {
	same := func(_ byte, folder *part.Folder) { folder.Directory = "one" }
	if _, err := NewPlan(sharing(map[byte]string{1: "12", 2: "12"}, same), nil); err == nil {
		t.Error("two devices have one directory")
	}
	one := sharing(map[byte]string{1: "12"}, unchanged)
	one[0].Head.Name = "laptop"
	_, err := NewPlan(append(one, sharing(map[byte]string{1: "12"}, unchanged)...), nil)
	if err == nil || !strings.Contains(err.Error(), "1 and 1 are both of device laptop (AAAAAAA): give one of them") {
		t.Errorf("two parts are of one device: %v", err)
	}
	if _, err := NewPlan(one, []string{"pics"}); err == nil {
		t.Error("no device has the folder")
	}
	other := sharing(map[byte]string{2: "12"}, unchanged)
	other[0].Head.Prefix = "a"
	if _, err := NewPlan(append(one, other...), nil); err == nil {
		t.Error("the parts have other names")
	}
	one[0].Head.Names, other[0].Head.Names = choice.Names{Slice: 3, Slices: 7}, choice.Names{Slice: 4, Slices: 7}
	_, err = NewPlan(append(one, other...), nil)
	if err == nil || err.Error() != "refused: 1 has slice 3 of 7 of all names, and 2 has slice 4 of 7 of all names: make all parts with the same --slice" {
		t.Errorf("the parts are of two slices: %v", err)
	}
	other[0].Head.Names = one[0].Head.Names
	if _, err = NewPlan(append(one, other...), nil); err != nil {
		t.Errorf("the parts are of one slice: %v", err)
	}
}

// In whatever order the parts are given, the devices stand in that of their numbers; and it is kept whether folders were asked for.
func TestThePlaceOfEachDevice(t *testing.T) {
	for _, wanted := range [][]string{nil, {"docs"}} {
		for turn := 0; turn < 3; turn++ {
			devices := sharing(map[byte]string{1: "123", 2: "123", 3: "123"}, unchanged)
			plan, err := NewPlan(append(devices[turn:len(devices):len(devices)], devices[:turn]...), wanted)
			if err != nil || len(plan.Folders) != 1 || plan.IsByName != (wanted != nil) {
				t.Fatal(plan, err)
			}
			for place, member := range plan.Folders[0].Members {
				if member.Head.Device != devices[place].Head.Device || plan.Devices[place] != devices[place] {
					t.Errorf("turn %d: %s stands in place %d", turn, member.Head.Device, place)
				}
			}
		}
	}
}
