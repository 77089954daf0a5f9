package inputs

import (
	"sort"

	"github.com/syncthing/syncthing/lib/config"
	"golang.org/x/exp/slices"
	"syncthing-audit/device"
	"syncthing-audit/part"
)

// Others gives the folders of a device that aren't asked for or are away, rising.
func Others(home *device.Home, wanted []string, withPaths bool) []part.Other {
	others := []part.Other{}
	for _, folder := range home.Config.Folders {
		if !isChosen(folder, wanted) {
			others = append(others, otherOf(home, folder, withPaths))
		}
	}
	sort.Slice(others, func(a, b int) bool { return others[a].ID < others[b].ID })
	return others
}

// otherOf gives what a part says of a folder that it hasn't.
func otherOf(home *device.Home, folder config.FolderConfiguration, withPaths bool) part.Other {
	away := device.AwayWithoutPath
	if withPaths {
		away = device.Away
	}
	lacking := part.Other{ID: folder.ID, Label: folder.Label, Devices: []string{}, Away: away(folder)}
	lacking.IsStopped = lacking.Away != "" && !folder.Paused
	lacking.IsUnmarked = device.IsUnmarked(folder)
	for _, other := range home.Sharing(folder) {
		lacking.Devices = append(lacking.Devices, other.Device)
	}
	return lacking
}

// Chosen gives the folders that are asked for, or all, but those that are away.
func Chosen(about config.Configuration, wanted []string) []config.FolderConfiguration {
	folders := []config.FolderConfiguration{}
	for _, folder := range about.Folders {
		if isChosen(folder, wanted) {
			folders = append(folders, folder)
		}
	}
	return folders
}

// isChosen says whether a folder is asked for, by its id or with all, and is there.
func isChosen(folder config.FolderConfiguration, wanted []string) bool {
	return (len(wanted) == 0 || slices.Contains(wanted, folder.ID)) && device.Away(folder) == ""
}
