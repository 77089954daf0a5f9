package outlook

import (
	"fmt"
	"math/rand"
	"reflect"
	"testing"

	"golang.org/x/exp/slices"
	"syncthing-audit/forecast"
	"syncthing-audit/join"
	"syncthing-audit/part"
)

// renamed gives a name that one of several devices renamed to another one, where nobody has heard of that, and rots it on some others. Over is whether
// the other name stood before.
func renamed(devices, by int, rotten []int, over bool) []*join.Row {
	from, to := calm("a", devices, 1), modifiedAt(50, calm("b", devices, 2))
	if !over {
		to = &join.Row{Name: "b", At: make([]*part.Name, devices)}
		for member := range to.At {
			to.At[member] = &part.Name{Name: "b"}
		}
	}
	version := [][2]uint64{{uint64(by + 1), 5}}
	if over {
		version = append(version, [2]uint64{9, 1})
	}
	content := *from.At[by].Own.Content
	to.At[by].Own = &part.Record{ModifiedS: 100, ModifiedBy: uint64(by + 1), Version: version, Sequence: 13, Content: &content}
	to.At[by].Disk = &part.Node{ModifiedS: 100, Size: content.Size, Contents: []part.Content{content}, Permissions: 0o644}
	gone := *from.At[by].Own
	gone.Deleted, gone.Content, gone.Sequence, gone.Version, gone.ModifiedS = true, nil, 12, [][2]uint64{{uint64(by + 1), 5}, {9, 1}}, 200
	from.At[by].Own, from.At[by].Disk = &gone, nil
	for _, member := range rotten {
		from.At[member].Disk.Contents[0].Hash = part.Hash{byte(90 + member)}
	}
	return []*join.Row{from, to}
}

// modifiedAt gives a row at rest another time.
func modifiedAt(seconds int64, row *join.Row) *join.Row {
	for _, at := range row.At {
		at.Own.ModifiedS, at.Disk.ModifiedS = seconds, seconds
		for _, seen := range at.Views {
			seen.Record.ModifiedS = seconds
		}
	}
	return row
}

// Rotten bytes that a device moves to the name that another one gave them have steps: the right bytes are copied to it.
func TestRottenBytesThatARenameCarries(t *testing.T) {
	for _, over := range []bool{false, true} {
		told := outlookOf(folderOf("send-receive", "send-receive", "send-receive"), renamed(3, 0, []int{1}, over))
		for _, name := range told.Listed {
			if name.Name == "b" && name.Fate != Stays {
				t.Errorf("over %v: %+v", over, name)
			}
		}
		var plan *Plan
		for _, found := range told.Plans {
			if found.Goal != nil && found.Names[0] == "b" {
				plan = found
			}
		}
		if plan == nil || !reflect.DeepEqual(plan.Goal.Devices, at(0)) {
			t.Fatalf("over %v: %+v", over, told.Plans)
		}
		saved := slices.IndexFunc(told.Plans, func(plan *Plan) bool {
			return plan.Goal == nil && plan.Names[0] == "a" && reflect.DeepEqual(plan.Steps, []Step{{Act: Save, Device: idOf(1)}})
		})
		if saved < 0 {
			t.Errorf("over %v: the rotten bytes aren't saved: %+v", over, told.Plans)
		}
		copied := plan.Steps[len(plan.Steps)-1]
		if copied.Act != Copy || copied.Device != idOf(1) || copied.From != idOf(0) {
			t.Errorf("over %v: %+v", over, plan.Steps)
		}
	}
}

// Each name of which a device comes to have bytes that aren't those recorded, and that no scan sees, has steps to the bytes that the others come to have, where
// these stand on a disk.
func TestNamesWithBytesThatNoScanSeesHaveSteps(t *testing.T) {
	asked := 0
	for seed := int64(1); seed <= 40; seed++ {
		random := rand.New(rand.NewSource(seed))
		devices := 2 + random.Intn(3)
		by, rotten := random.Intn(devices), []int{}
		for member := 0; member < devices; member++ {
			if member != by && random.Intn(2) == 0 {
				rotten = append(rotten, member)
			}
		}
		kinds := kindsOf(seed, devices)
		all := renamed(devices, by, rotten, random.Intn(2) == 0)
		told := outlookOf(folderOf(kinds...), all)
		for _, name := range told.Listed {
			if !isNotSeen(&name) || !hasRightBytes(&name) {
				continue
			}
			asked++
			if name.Plan == nil || name.Plan.Goal == nil {
				t.Errorf("seed %d, %v, renamed by %d, rotten on %v: no steps for %+v", seed, kinds, by, rotten, name)
			}
		}
	}
	if asked < 15 {
		t.Error(fmt.Sprint("only so many names were asked for: ", asked))
	}
}

// isNotSeen says whether a name ends with bytes that no scan sees, and all that is wrong with it is that.
func isNotSeen(name *Name) bool {
	for _, kept := range name.Kept {
		if kept.Why != forecast.NotSeen {
			return false
		}
	}
	return name.Fate == Stays && len(name.Kept) > 0
}

// hasRightBytes says whether the bytes that the other devices come to have stand on a disk under this name now.
func hasRightBytes(name *Name) bool {
	for _, thing := range name.Ends[0] {
		for _, now := range name.Now {
			is := now.IsSame(thing)
			for _, kept := range name.Kept {
				for _, member := range placesOf(thing.Devices) {
					is = is && idOf(member) != kept.Device
				}
			}
			if is {
				return true
			}
		}
	}
	return false
}
