package finding

import (
	"fmt"
	"testing"

	"syncthing-audit/join"
)

// What no document has is told among what syncaudit tells, in the order of names; a file is told by syncaudit alone.
func TestDamageAmongFailures(t *testing.T) {
	folder := &Folder{Members: []join.Member{{Device: &join.Device{Number: 1}}, {Device: &join.Device{Number: 2}}}}
	for _, name := range []string{"a", "c", "e"} {
		folder.Failures.Add(Failure{storeDiffers, name, 2})
	}
	folder.Damaged.Add(Damaged{Name: "b/", At: []DamagedAt{{Member: 0, Why: "why"}, {Member: 1, Why: "why"}}})
	folder.Damaged.Add(Damaged{Name: "c", IsFile: true, At: []DamagedAt{{Member: 1, Why: "why"}}})
	folder.Damaged.Add(Damaged{Name: "z", At: []DamagedAt{{Member: 1, Why: "why"}}})
	failures, names := "", ""
	folder.EachFailure(func(one *Failure) { failures += fmt.Sprint(one.Name, one.Device, " ") })
	folder.EachName(func(one *Told) { names += fmt.Sprint(one.Name, len(one.Failures), one.Damaged != nil, " ") })
	if failures != "a2 b/1 b/2 c2 e2 z2 " || names != "a1 false b/0 true c1 true e1 false z0 true " {
		t.Errorf("%q, %q", failures, names)
	}
}
