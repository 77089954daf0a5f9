package observe

import (
	"fmt"
	"testing"

	"github.com/syncthing/syncthing/lib/protocol"
	"syncthing-audit/budget"
	"syncthing-audit/wire"
)

// A part says which folders it is without, rising, and why; whose walk has the disks, whether the bytes of some files weren't asked for, and from where
// an index went back: the highest of all folders.
func TestWhatAPartIsWithout(t *testing.T) {
	device := folders(t, "docs", "pics", "zip")
	for place := range device.Folders {
		device.Folders[place].since = device.Folders[place].index
	}
	device.Folders[0].wentBack, device.Folders[1].wentBack, device.Half = 3, 7, "a walk"
	for number := 0; number < 20; number++ {
		device.Out[fmt.Sprintf("out %02d", number)] = []error{wire.Paused, fmt.Errorf("%w: 2 names", wire.EncryptedFolder)}[number%2]
	}
	head := device.head(Asked{Chosen: &budget.Plan{}}, protocol.DeviceID{5}, "look", []*Device{device})
	if head.Wire.Half != "a walk" || !head.Wire.IsPartial || head.Wire.WentBackFrom != 7 || len(head.Folders) != 3 || len(head.Wire.Without) != 20 || head.Look.After[device.ID.String()] != "look" {
		t.Errorf("%+v", head.Wire)
	}
	for number, without := range head.Wire.Without {
		due := fmt.Sprintf("out %02d", number)
		if without.Folder != due || without.IsEncrypted != (number%2 == 1) || without.Why != device.Out[due].Error() {
			t.Errorf("%d: %+v", number, without)
		}
	}
	if plain := folders(t).head(Asked{}, protocol.DeviceID{5}, "", nil); plain.Wire.Half != "" || plain.Wire.IsPartial || plain.Wire.WentBackFrom != 0 {
		t.Errorf("%+v", plain.Wire)
	}
}
