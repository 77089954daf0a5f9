package gather

import "syncthing-audit/part"

// hidePaths takes the absolute paths of this machine out of a head. Who reads it elsewhere needs none of them.
func hidePaths(head *part.Head) {
	for place := range head.Folders {
		folder := &head.Folders[place]
		folder.Path, folder.Options = "", folder.Options.WithoutPath()
	}
	if head.Newer != nil {
		newer := *head.Newer
		newer.Path = ""
		head.Newer = &newer
	}
}
