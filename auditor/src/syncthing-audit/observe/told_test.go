package observe

import (
	"reflect"
	"testing"

	"github.com/syncthing/syncthing/lib/protocol"
	"syncthing-audit/part"
	"syncthing-audit/wire"
)

// What a device's own Syncthing says of its folders stands in its part, and isn't unseen there, if it was asked of all of them. What the wire shows
// otherwise isn't taken of any.
func TestWhatSyncthingSaysOfItself(t *testing.T) {
	said := func(kind string) *part.Folder {
		return &part.Folder{Kind: kind, Options: &part.Options{MaxConflicts: 3}, Rest: &part.Rest{State: "scanning"}, PausedDevices: []string{"x"}}
	}
	for _, row := range []struct {
		why     string
		told    map[string]*part.Folder
		kinds   []string
		isAsked bool
		isWrong bool
	}{
		{"nobody asked", nil, []string{"send-receive", "send-only"}, false, false},
		{"all was asked", map[string]*part.Folder{"a": said("receive-only"), "b": said("send-only")}, []string{"receive-only", "send-only"}, true, false},
		{"one was asked", map[string]*part.Folder{"a": said("receive-only")}, []string{"receive-only", "send-only"}, false, false},
		{"one is otherwise", map[string]*part.Folder{"a": said("receive-only"), "b": said("receive-only")}, []string{"send-receive", "send-only"}, false, true},
	} {
		device := &Device{ID: protocol.DeviceID{7: 1}, Folders: []*Folder{{said: wire.Folder{ID: "a"}}, {said: wire.Folder{ID: "b", SendOnly: true}}}}
		for _, folder := range device.Folders {
			folder.of, folder.index, folder.since = device.ID, wire.NewIndex(1), wire.NewIndex(1)
		}
		err := device.Tell(row.told)
		head := device.head(Asked{}, protocol.DeviceID{7: 2}, "0f", []*Device{device})
		kinds := []string{}
		for _, folder := range head.Folders {
			kinds = append(kinds, folder.Kind)
		}
		isUnseen := reflect.DeepEqual(head.Wire.Unseen, part.AlwaysUnseen)
		if (err != nil) != row.isWrong || !reflect.DeepEqual(kinds, row.kinds) || isUnseen == row.isAsked || head.IsAsked() != row.isAsked {
			t.Errorf("%s: %v, %v, %v", row.why, kinds, head.Wire.Unseen, err)
		}
	}
}

// Of which kind a folder is, the device says over the wire, as far as its version does; else its local changes show it.
func TestKindsOverTheWire(t *testing.T) {
	for kind, folders := range map[string][]*Folder{"send-only": {{said: wire.Folder{SendOnly: true}}, {said: wire.Folder{SendOnly: true}, isReceiver: true}},
		"receive-only": {{said: wire.Folder{ReceiveOnly: true}}, {isReceiver: true}, {isOpened: true}}, "send-receive": {{}}} {
		for _, folder := range folders {
			if told := folder.kind(); told != kind {
				t.Errorf("%+v: %s", folder, told)
			}
		}
	}
}
