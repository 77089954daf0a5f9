package part

import "syncthing-audit/limits"

// UsualMarker is the name in a folder's directory by which Syncthing knows that the disk is there, if nothing else is configured.
const UsualMarker = ".stfolder"

// MarkerOf gives what a part says of a marker: nothing of the usual one, and of one that no name has.
func MarkerOf(configured string) string {
	if configured == UsualMarker || limits.CheckName(configured) != nil {
		return ""
	}
	return configured
}
