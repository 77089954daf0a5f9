package observe

import (
	"syncthing-audit/part"
)

// Tell takes what the device's own Syncthing says of folders: what is configured, what it does there, and what it still needs. It is taken of all of them
// or, where something isn't as the wire shows it, of none.
func (d *Device) Tell(told map[string]*part.Folder) error {
	for _, folder := range d.Folders {
		if said := told[folder.ID()]; said != nil {
			seen := part.Folder{Kind: folder.kind()}
			if err := seen.TakeConfigured(said); err != nil {
				return inFolder(folder.ID(), err)
			}
		}
	}
	for _, folder := range d.Folders {
		folder.told = told[folder.ID()]
	}
	return nil
}
