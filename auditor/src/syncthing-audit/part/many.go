package part

import (
	"fmt"
	"sort"
)

// How many folders and devices a part may be of: more than any Syncthing has. A head has room for hundreds of thousands, and what is done for each
// of them by each other one would take hours then.
const (
	mostFolders = 10000 // and as many others

	MostPeers = 1000 // devices of one folder
)

// checkMany says of which folders or devices a head has too many.
func checkMany(head *Head) error {
	if len(head.Folders) > mostFolders || len(head.Others) > mostFolders {
		return fmt.Errorf("it is of %d folders, and has %d others: of each at most %d go into a part", len(head.Folders), len(head.Others), mostFolders)
	}
	for _, folder := range head.Folders {
		for _, count := range []int{len(folder.Sharing), len(folder.Views), len(folder.PausedDevices), len(folder.Writers)} {
			if count > MostPeers {
				return fmt.Errorf("folder %q has %d devices or what writes into it, and at most %d go into a part", folder.ID, count, MostPeers)
			}
		}
	}
	for _, other := range head.Others {
		if len(other.Devices) > MostPeers {
			return fmt.Errorf("folder %q has %d devices, and at most %d go into a part", other.ID, len(other.Devices), MostPeers)
		}
	}
	return nil
}

// Arrange puts the folders of what a device says of itself in their places, as a part has them, and says of which there are too many.
func (h *Head) Arrange() error {
	sort.SliceStable(h.Folders, func(a, b int) bool { return h.Folders[a].ID < h.Folders[b].ID })
	sort.SliceStable(h.Others, func(a, b int) bool { return h.Others[a].ID < h.Others[b].ID })
	return checkMany(h)
}
