package forecast

import (
	"fmt"
	"math/rand"
)

// namesOfWorlds are names that hang together in one way or another.
var namesOfWorlds = [][]string{{"a"}, {"d", "d/a"}, {"a", "b"}, {"d/a"}, {"a.sync-conflict-20240102-030405-ABCDEFG.txt", "a.txt"}, {"a", "b", "c"}, {"d", "d/a", "d/e", "d/e/b"},
	{"d", "d/a"}, {"d", "d/e", "d/e/a"}}

// randomWorld draws a world of two or three devices: what they recorded and heard of each other, and what stands on their disks, agrees here and there.
func randomWorld(random *rand.Rand) World {
	world, numbers := World{}, random.Perm(3)
	for i := 0; i < 2+random.Intn(4)/2; i++ {
		world.Devices = append(world.Devices, randomDevice(uint64(10*(1+numbers[i])), random))
	}
	if random.Intn(8) == 0 {
		for i := range world.Devices {
			world.Devices[i].TimeWindow = 2
		}
	}
	if random.Intn(8) == 0 {
		world.Devices[0].Apart, world.Devices[1].Apart = 1<<1, 1<<0
	}
	for _, name := range namesOfWorlds[random.Intn(len(namesOfWorlds))] {
		world.Names = append(world.Names, randomName(name, world.Devices, random))
	}
	return world
}

func randomDevice(number uint64, random *rand.Rand) Device {
	device := Device{Release: []Release{V1_19, V1_29}[random.Intn(2)], Number: number, MaxConflicts: []int{10, 10, 0, 1, -1}[random.Intn(5)]}
	if random.Intn(3) == 0 {
		device.Kind = []Kind{SendOnly, ReceiveOnly}[random.Intn(2)]
	}
	device.IgnorePermissions, device.IgnoreDelete = random.Intn(6) == 0, random.Intn(6) == 0
	return device
}

// randomCommands draws a Revert or an Override of some devices that can be given one.
func randomCommands(devices []Device, random *rand.Rand) []Command {
	var commands []Command
	for place, device := range devices {
		if device.Kind != SendReceive && random.Intn(2) == 0 {
			commands = append(commands, Command{Device: place, IsOverride: device.Kind == SendOnly})
		}
	}
	return commands
}

// randomName draws what devices have of a name: two versions of it, one above the other or beside it.
func randomName(name string, devices []Device, random *rand.Rand) Name {
	old := randomRecord(random, name == "d" || name == "d/e")
	other := randomRecord(random, (name == "d" || name == "d/e") && random.Intn(4) > 0)
	old.Version = []Counter{{10, 1}}
	maker := random.Intn(4) // of the other version: no device forgot what it counted; the last one is beside the first version
	other.Version = [][]Counter{{{10, 2}}, {{10, 1}, {20, 1}}, {{10, 1}, {30, 3}}, {{20, 1}}}[maker]
	drawn := Name{Name: name}
	for i := range devices {
		own := &old
		if i == 1 && maker == 3 || i == maker || i > 0 && random.Intn(3) == 0 {
			own = &other
		}
		if i > 0 && own == &old && random.Intn(4) == 0 {
			own = nil
		}
		if own != nil {
			own = flagged(own, &devices[i], random)
		}
		drawn.Own, drawn.Views, drawn.Disk = append(drawn.Own, own), append(drawn.Views, make([]*Record, len(devices))), append(drawn.Disk, standing(own, random))
	}
	for i := range devices {
		for j := range devices {
			if own := drawn.Own[j]; j != i && own != nil && random.Intn(6) > 0 {
				drawn.Views[i][j] = heard(own)
			}
		}
	}
	return drawn
}

// flagged has some records be a local change of a device that only receives, and some wait for a scan.
func flagged(own *Record, device *Device, random *rand.Rand) *Record {
	changed := *own
	switch {
	case device.Kind == ReceiveOnly && random.Intn(4) == 0:
		changed.Flag, changed.Version = LocalChange, []Counter{{device.Number, 9}}
	case own.Type == File && !own.Deleted && random.Intn(12) == 0:
		changed.Flag, changed.Content = MustBeHashed, Content{}
	}
	return &changed
}

// heard gives what others hear of a record.
func heard(own *Record) *Record {
	view := *own
	if view.Flag != Valid {
		if view.Flag == LocalChange {
			view.Version = nil
		}
		view.Flag = Invalid
	}
	return &view
}

func randomRecord(random *rand.Rand, isDirectory bool) Record {
	record := Record{Type: File, Time: random.Int63n(5) - 1, Mode: []int{0o644, 0o600}[random.Intn(2)]}
	switch {
	case isDirectory:
		record.Type, record.Mode = Directory, []int{0o755, 0o700}[random.Intn(2)]
	case random.Intn(8) == 0:
		record.Type, record.Target, record.Mode = Symlink, fmt.Sprint("to ", random.Intn(2)), NoMode
	}
	if random.Intn(10) == 0 {
		record.Mode = NoMode
	}
	if record.Deleted = random.Intn(5) == 0; !record.Deleted && record.Type == File {
		text := []string{"x", "y", "longer", ""}[random.Intn(4)]
		record.Content = Content{int64(len(text)), "of " + text}
	}
	return record
}

// standing draws what stands where a device recorded this: mostly that.
func standing(own *Record, random *rand.Rand) *Node {
	if random.Intn(4) == 0 {
		other := randomRecord(random, random.Intn(4) == 0)
		other.Time += 5 * random.Int63n(2)
		own = &other
	}
	if own == nil || own.Deleted {
		return nil
	}
	node := &Node{Type: own.Type, Time: own.Time, Content: own.Content, Target: own.Target, Mode: own.Mode}
	if node.Mode == NoMode && node.Type != Symlink {
		node.Mode = 0o640
	}
	return node
}
