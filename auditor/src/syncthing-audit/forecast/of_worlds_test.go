package forecast_test

import (
	"path/filepath"
	"reflect"
	"testing"

	"syncthing-audit/forecast"
	"syncthing-audit/worlds"
)

// ofWorlds gives each world that was tried on real devices, for each release.
func ofWorlds(t *testing.T, take func(path, release string, world *worlds.World, played forecast.World)) {
	paths, err := filepath.Glob("../worlds/*.json")
	if err != nil || len(paths) < 20 {
		t.Fatal(paths, err)
	}
	for _, path := range paths {
		world, err := worlds.Read(path)
		if err != nil {
			t.Fatal(path, err)
		}
		for name, release := range map[string]forecast.Release{"1.19": forecast.V1_19, "1.29": forecast.V1_29} {
			played, err := world.Play(release)
			if err != nil {
				t.Fatal(path, err)
			}
			take(filepath.Base(path), name, world, played)
		}
	}
}

// The model foretells the ends that real devices came to, and no others.
func TestTheModelIsAsRealDevicesAre(t *testing.T) {
	ofWorlds(t, func(path, release string, world *worlds.World, _ forecast.World) {
		found, isAll, err := world.Foretold(map[string]forecast.Release{"1.19": forecast.V1_19, "1.29": forecast.V1_29}[release])
		came := worlds.Texts(append(append([]worlds.End{}, world.Ends["both"]...), world.Ends[release]...))
		if foretold := worlds.Texts(found); err != nil || !isAll || !reflect.DeepEqual(came, foretold) {
			t.Errorf("%s, %s: %v: all %v: %q, not %q", path, release, err, isAll, foretold, came)
		}
	})
}

// Where there are too many orders to try them all, walks in random order come to ends that some order comes to, to no other ones, and mostly to each. It is
// told how many orders were tried.
func TestWalksComeToTheEndsOfAllOrders(t *testing.T) {
	ends, met := 0, 0
	ofWorlds(t, func(path, release string, _ *worlds.World, played forecast.World) {
		all := forecast.New(forecast.Usual).OfGroup(played.Devices, played.Names)
		walked := forecast.New(forecast.Budget{States: 1, Walks: 40, Total: 1}).OfGroup(played.Devices, played.Names)
		if !all.IsAll || all.Orders != 0 || walked.States > all.States {
			t.Fatalf("%s, %s: %+v", path, release, all)
		}
		if walked.IsAll && !reflect.DeepEqual(walked.Ends, all.Ends) || !walked.IsAll && (walked.Orders != 40 || walked.Endless != 0 || len(walked.Ends) == 0) {
			t.Errorf("%s, %s: %d orders, of which %d had no end", path, release, walked.Orders, walked.Endless)
		}
		for _, end := range walked.Ends {
			if !isAmong(end, all.Ends) {
				t.Errorf("%s, %s: a walk comes to %+v, and no order does", path, release, end)
			}
		}
		for _, end := range all.Ends {
			ends++
			if isAmong(end, walked.Ends) {
				met++
			}
		}
	})
	if met*10 < ends*9 {
		t.Errorf("walks come to %d of %d ends", met, ends)
	}
}

func isAmong(one forecast.End, ends []forecast.End) bool {
	for _, other := range ends {
		if reflect.DeepEqual(one.Disks, other.Disks) { // what is stuck on the way there may differ by the order
			return true
		}
	}
	return false
}
