package finding

import (
	"testing"

	"syncthing-audit/damage"
	"syncthing-audit/part"
)

// How a disk isn't as its record says: what looks like damage isn't called changed.
func TestKindOfWaiting(t *testing.T) {
	recorded := func() *part.Record {
		return &part.Record{ModifiedS: 7, Content: &part.Content{Size: 300000, BlockSize: 131072}}
	}
	node := func(size, seconds int64) *part.Node { return &part.Node{Size: size, ModifiedS: seconds} }
	for _, one := range []struct {
		at   *part.Name
		kind string
	}{
		{nil, WaitsUnknown}, {&part.Name{Own: recorded()}, WaitsMissing}, {&part.Name{Own: recorded(), Disk: node(0, 7)}, string(damage.Emptied)},
		{&part.Name{Own: recorded(), Disk: node(0, 9)}, string(damage.Emptied)}, {&part.Name{Own: recorded(), Disk: node(9, 7)}, string(damage.Cut)},
		{&part.Name{Own: recorded(), Disk: node(9, 9)}, WaitsChanged}, {&part.Name{Own: recorded(), Disk: node(300001, 7)}, string(damage.Longer)},
		{&part.Name{Own: recorded(), Disk: node(300000, 9)}, WaitsChanged}, {&part.Name{Disk: node(1, 1)}, WaitsNew},
		{&part.Name{Own: &part.Record{Deleted: true}, Disk: node(1, 1)}, WaitsBack},
		{&part.Name{Own: recorded(), Disk: &part.Node{Type: 1, ModifiedS: 7}}, WaitsChanged},
		{&part.Name{Own: &part.Record{Type: 4, Target: "a"}, Disk: &part.Node{Type: 4, Target: "b"}}, WaitsChanged},
	} {
		if kind := KindOfWaiting(one.at); kind != one.kind {
			t.Errorf("%+v: %s, not %s", one.at, kind, one.kind)
		}
	}
}
