package worlds

import (
	"path/filepath"
	"reflect"
	"strings"
	"testing"

	"syncthing-audit/forecast"
)

var releases = map[string]forecast.Release{"1.19": forecast.V1_19, "1.29": forecast.V1_29}

// The forecast of each world has the ends that real devices came to, and no others.
func TestWorlds(t *testing.T) {
	paths, err := filepath.Glob("*.json")
	if err != nil || len(paths) < 20 {
		t.Fatal(paths, err)
	}
	for _, path := range paths {
		world, err := Read(path)
		if err != nil {
			t.Fatal(path, err)
		}
		for name, release := range releases {
			ends := append(append([]End{}, world.Ends["both"]...), world.Ends[name]...)
			found, isAll, err := world.Foretold(release)
			if err != nil {
				t.Fatal(path, err)
			}
			if came, foretold := Texts(ends), Texts(found); !isAll || !reflect.DeepEqual(came, foretold) {
				between := "\n           "
				t.Errorf("%s, %s (all orders: %v):\n  came     %s\n  foretold %s", path, name, isAll, strings.Join(came, between), strings.Join(foretold, between))
			}
		}
	}
}
