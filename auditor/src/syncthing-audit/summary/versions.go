package summary

import (
	"syncthing-audit/print"
	"syncthing-audit/shell"
)

// versions names old versions, with their places on the devices of folders that tell them. Others may have some from before: who keeps none now says nothing of that.
func versions(named print.Names, folders ...*Folder) string {
	places := print.Places{}
	for _, folder := range folders {
		for _, member := range folder.Devices {
			if !member.Versions.AreKept() {
				continue
			}
			place := "a directory outside the folder"
			if member.Versions.Place != "" {
				place = shell.Path(member.Versions.Place)
			}
			places.Add(place, member.Device)
		}
	}
	if len(places.Keys) == 0 {
		return "old versions"
	}
	return "old versions (" + places.Joined(named, func(place, devices string) string { return place + " on " + devices }) + ")"
}

// foldersOf gives the folders of these ids.
func (s *Summary) foldersOf(ids []string) (folders []*Folder) {
	for _, id := range ids {
		folders = append(folders, s.folder(id))
	}
	return folders
}
