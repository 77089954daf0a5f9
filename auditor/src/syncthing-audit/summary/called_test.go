package summary

import (
	"testing"

	"github.com/syncthing/syncthing/lib/protocol"
)

// A device chooses its name, and is taken for no other one by that: where it may be, the begin of its id stands behind it.
func TestNoDeviceIsTakenForAnother(t *testing.T) {
	const id, short = " (AEAAAAA)", "AIAAAAA" // of the first and of the second one
	for name, called := range map[string]string{"nas": "nas", "Laptop": "Laptop", "laptop 2": "laptop 2", "": "AEAAAAA", "server": "server" + id, "SERVER": "SERVER" + id,
		" server ": " server " + id, short: short + id, "aiaaaaa": "aiaaaaa" + id, "server, nas": "server, nas" + id, "server (AIAAAAA)": "server (AIAAAAA)" + id, "server and nas": "server and nas" + id} {
		for other, due := range map[string]string{"server": "server", "": short} {
			s := &Summary{Devices: []Device{{ID: protocol.DeviceID{1}.String(), Name: name}, {ID: protocol.DeviceID{2}.String(), Name: other}}}
			expected := called
			if alikeOf(name) == "server" && other == "" {
				expected = name // nobody else is called so
			}
			if told := s.Called()(s.Devices[0].ID); told != expected {
				t.Errorf("%q beside %q: %q, not %q", name, other, told, expected)
			}
			if alikeOf(name) == alikeOf(other) && other != "" {
				due += " (" + short + ")"
			}
			if told := s.Called()(s.Devices[1].ID); told != due {
				t.Errorf("%q beside %q: %q, not %q", other, name, told, due)
			}
		}
	}
}
