// Package worlds has histories of Syncthing devices, what was changed on their disks, and the ends that real devices came to, for each
// release of Syncthing. They are data: files of JSON. Go's tests run each through the forecast. auditor/test/worlds.py replays each on real
// devices. Both compare the ends exactly: kinds, bytes, targets and conflict copies on each device.
//
// A history is a list of steps:
//
//	["alpha", "write", NAME, TEXT, TIME]    a file, with its directories; the time is in seconds, and may be left out
//	["alpha", "rot", NAME, TEXT]            other bytes under the same time and mode
//	["alpha", "touch", NAME, TIME]          another time
//	["alpha", "mode", NAME, "0600"]         another mode
//	["alpha", "directory", NAME]            a directory
//	["alpha", "link", NAME, TARGET]         a symlink
//	["alpha", "delete", NAME]               with all below it
//	["alpha", "move", NAME, TO]             under its time, with all below it
//	["alpha", "copy", NAME, "beta"]         what another device has there, under its time and mode
//	["up", "alpha", "beta"]                 these run until nothing changes any more, and stop
//	["up", "alpha", "revert alpha"]         the same, and then a command, and what comes of it
//	["kinds"]                               from here on devices have their kinds; before it all send and receive
//
// Behind the last step all devices run until nothing changes any more. What stands on their disks then is an end:
//
//	{"alpha": {"a": "file TEXT", "d": "directory", "l": "symlink TARGET", "copies of a": ["file TEXT"]}, "beta": ..}
//
// Devices with the same have one entry: "alpha, beta". With the option "versioning" a device keeps old versions. Of these an end has what stood there before the
// last step: {"old versions of a": "file TEXT"}.
package worlds

import (
	"encoding/json"
	"os"
)

// World is one file.
type World struct {
	Title   string                       `json:"title"`
	Devices map[string]string            `json:"devices"` // kinds, in Syncthing's words
	Options map[string]map[string]string `json:"options,omitempty"`
	History [][]interface{}              `json:"history"`
	Ends    map[string][]End             `json:"ends"` // by release: '1.19', '1.29', or 'both'
}

// End is what stands on disks, by devices and names.
type End map[string]map[string]interface{}

// Read reads a file.
func Read(path string) (*World, error) {
	text, err := os.ReadFile(path)
	if err != nil {
		return nil, err
	}
	world := &World{}
	return world, json.Unmarshal(text, world)
}
