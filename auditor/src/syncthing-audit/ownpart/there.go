package ownpart

import (
	"fmt"

	"golang.org/x/exp/slices"
	"syncthing-audit/commandline"
	"syncthing-audit/device"
	"syncthing-audit/inputs"
	"syncthing-audit/shell"
)

// checkThere says which folder that is asked for isn't there: the first one where none is, and of a strict audit each that isn't paused.
func checkThere(home *device.Home, asked commandline.Options) error {
	isNoneThere := len(inputs.Chosen(home.Config, asked.Folders)) == 0
	for _, folder := range home.Config.Folders {
		isAsked := len(asked.Folders) == 0 || slices.Contains(asked.Folders, folder.ID)
		if isAsked && device.Away(folder) != "" && (isNoneThere || asked.Strict && !folder.Paused) {
			return fmt.Errorf("%s: %w", home.Dir, shell.Labelled(device.CheckPath(folder), folder.ID, folder.Label))
		}
	}
	return nil
}
