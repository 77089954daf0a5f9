package part

import (
	"strings"
	"testing"
	"time"

	"github.com/syncthing/syncthing/lib/protocol"
	"syncthing-audit/choice"
)

// A part of a slice has a version that a program of 0.10.0 or before refuses: it would take the slice's names for all. Others have the
// version that they had.
func TestVersions(t *testing.T) {
	const other = "by what it says of looks, slices, disks and the wire"
	first := &Look{Home: "home", ID: strings.Repeat("0", 32), At: time.Unix(0, 0)}
	begun, sliced := choice.Names{Prefix: "a"}, choice.Names{Slice: 3, Slices: 7}
	for _, one := range []struct {
		names   choice.Names
		look    *Look
		version int
		told    string
	}{
		{choice.Names{}, nil, 1, ""}, {begun, nil, 1, ""}, {begun, first, 2, ""}, {sliced, nil, 3, ""}, {sliced, first, 3, ""},
		{sliced, nil, 1, "the part has version 1; " + other + " it is 3"}, {sliced, first, 2, other}, {begun, nil, 3, other}, {begun, nil, 2, other}, {begun, first, 1, other},
		{begun, nil, 7, "reads versions 1 to 6"}, {begun, nil, 0, "reads versions 1 to 6"}, {begun, nil, 6, other}, {begun, nil, 4, other}, {begun, nil, 5, other},
		{choice.Names{Slice: 8, Slices: 7}, nil, 3, "it has slice 8 of 7"}, {choice.Names{Slice: 1, Slices: 1}, nil, 3, "it has slice 1 of 1"},
		{choice.Names{Slice: 3}, nil, 1, "it has slice 3 of 0"}, {sliced, &Look{Home: "home"}, 3, "look is none"},
	} {
		err := checkHead(&Head{Names: one.names, Look: one.look, Version: one.version, Device: protocol.DeviceID{7: 1}.String()})
		if (err == nil) != (one.told == "") || err != nil && !strings.Contains(err.Error(), one.told) {
			t.Errorf("%+v, version %d: %v", one.names, one.version, err)
		}
	}
}
