package forecast

import (
	"math/rand"
	"reflect"
	"testing"

	"golang.org/x/exp/slices"
)

// Whether devices keep old versions changes nothing of what stands on disks in the end. What goes to them stood there at first, and stands nowhere else unless
// another device or name has it.
func TestOldVersionsChangeNoEnd(t *testing.T) {
	kept := 0
	for seed := int64(0); seed < 200; seed++ {
		random := rand.New(rand.NewSource(seed))
		world := randomWorld(random)
		commands := randomCommands(world.Devices, random)
		budget := Budget{States: 300, Walks: 1, Total: 100000}
		due := New(budget).OfGroup(world.Devices, world.Copied().Names, commands...)
		for place := range world.Devices {
			world.Devices[place].Versions = []Versions{VersionsKept, VersionsKept, VersionsNone, VersionsExternal}[random.Intn(4)]
		}
		found := New(budget).OfGroup(world.Devices, world.Copied().Names, commands...)
		if !due.IsAll || !found.IsAll {
			continue
		}
		for _, end := range found.Ends {
			for _, at := range end.Versions {
				kept++
				if what := world.At(at.Device, at.Name); world.Devices[at.Device].Versions != VersionsKept || what == nil || what.Type != File {
					t.Errorf("seed %d: %+v goes to old versions: %+v", seed, at, what)
				}
			}
		}
		for place := range found.Ends {
			found.Ends[place].Versions = nil
		}
		if one, other := slices.Compact(sortedEnds(found)), sortedEnds(due); !reflect.DeepEqual(one, other) {
			t.Fatalf("seed %d: %d ends and %d\n%.3000s\n%.3000s", seed, len(one), len(other), one, other)
		}
	}
	if kept < 15 {
		t.Errorf("only %d go to old versions", kept)
	}
}
