package outlook

import (
	"fmt"
	"math/rand"
	"testing"

	"syncthing-audit/advice"
	"syncthing-audit/forecast"
	"syncthing-audit/forecast/read"
	"syncthing-audit/join"
	"syncthing-audit/part"
)

// harmedTree gives directories and files on some devices, of which some are gone or replaced on some disks, and some files changed elsewhere.
func harmedTree(random *rand.Rand, devices int) []*join.Row {
	rows := []*join.Row{}
	for number, name := range []string{"d", "d/a", "d/s", "d/s/c", "d/s/t", "d/s/t/e", "f"} {
		if name == "d" || name == "d/s" || name == "d/s/t" {
			rows = append(rows, calmDirectory(name, devices))
		} else {
			rows = append(rows, calm(name, devices, byte(number+1)))
		}
	}
	for count := random.Intn(4); count > 0; count-- {
		place, member := []int{1, 3, 5, 6}[random.Intn(4)], random.Intn(devices)
		changed(rows[place], member, byte(50+count), int64(200+random.Intn(100)))
	}
	for count := 1 + random.Intn(4); count > 0; count-- {
		harmTree(rows, random.Intn(len(rows)), random.Intn(devices), random.Intn(3) == 0)
	}
	if random.Intn(2) == 0 { // a directory is replaced on one device, and one below it is gone on another
		harmTree(rows, 0, 0, true)
		harmTree(rows, 2, 1, false)
	}
	return rows
}

// harmTree has nothing stand at a name on a disk, nor below it, or a file.
func harmTree(all []*join.Row, place, member int, byFile bool) {
	for _, row := range all {
		if row.Name == all[place].Name || isBelow(row.Name, all[place].Name) {
			row.At[member].Disk = nil
		}
	}
	if byFile && all[place].At[member].Own.Type == 1 && isRoomFor(all, place, member) {
		content := part.Content{Size: 4, BlockSize: 1 << 17, Hash: part.Hash{byte(200 + place), byte(member)}}
		all[place].At[member].Disk = &part.Node{ModifiedS: 400, Size: 4, Contents: []part.Content{content}, Permissions: 0o644}
	}
}

// isRoomFor says whether all directories above a name stand on a disk.
func isRoomFor(all []*join.Row, place, member int) bool {
	for _, row := range all {
		if isBelow(all[place].Name, row.Name) && (row.At[member].Disk == nil || row.At[member].Disk.Type != 1) {
			return false
		}
	}
	return true
}

// Each step can be taken when it comes from the top: what it copies, touches or saves stands there, and so does the directory into which it copies.
func TestStepsCanBeTakenFromTheTop(t *testing.T) {
	taken, nested := 0, 0
	for seed := int64(1); seed <= 80; seed++ {
		random := rand.New(rand.NewSource(seed))
		devices := 2 + random.Intn(3)
		folder, all := folderOf(kindsOf(seed, devices)...), harmedTree(random, devices)
		from := read.NewRows(folder)
		for _, row := range all {
			from.Take(row)
		}
		world, told, above := from.World(), outlookOf(folder, all), map[string]bool{}
		for _, plan := range told.Plans {
			for _, step := range plan.Steps {
				for _, name := range plan.Names {
					if why := cannot(&world, string(name), step); why != "" {
						t.Fatalf("seed %d: %+v of %s can't be taken: %s\n%+v", seed, step, name, why, told.Plans)
					}
					take(&world, string(name), step)
					taken++
				}
			}
			for _, name := range plan.Names {
				for other := range above {
					if isBelow(string(name), other) {
						nested++
					}
				}
				above[string(name)] = plan.IsOfDirectories()
			}
		}
	}
	if taken < 100 || nested < 10 {
		t.Error(fmt.Sprintf("%d steps were taken, %d of them below another one: too few", taken, nested))
	}
}

// cannot says why a step can't be taken.
func cannot(world *forecast.World, name string, step Step) string {
	switch {
	case step.Act == Copy && world.At(memberOf(step.From), name) == nil:
		return "there is nothing to copy"
	case step.Act == Copy && !world.HasRoom(memberOf(step.Device), name):
		return "the directory above isn't there"
	case (step.Act == Touch || step.Act == Save) && world.At(memberOf(step.Device), name) == nil:
		return "nothing stands there"
	}
	return ""
}

// take takes a step of a name.
func take(world *forecast.World, name string, step Step) {
	if step.Act != Save {
		advice.Step{Act: step.Act, Device: memberOf(step.Device), From: memberOf(step.From), Name: name}.On(world, presentOfPlans)
	}
}
