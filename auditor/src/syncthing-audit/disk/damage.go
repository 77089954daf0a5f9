package disk

import (
	"errors"

	"syncthing-audit/part"
)

// IsDamage says whether the disk itself, or the file system on it, fails to give what it has: a bad sector, say. That is more
// than a want of permission, since the bytes may be lost.
func IsDamage(err error) bool {
	if err == nil { // as of nearly all files, each of which is asked about
		return false
	}
	for _, error := range damages {
		if errors.Is(err, error) {
			return true
		}
	}
	return false
}

// outOf says why something isn't read: by what it is called, and the error.
func outOf(what string, err error) *part.LeftOut {
	if IsDamage(err) {
		return &part.LeftOut{Kind: part.Damaged, Why: "the disk fails to give " + what + ": " + err.Error()}
	}
	return &part.LeftOut{Kind: part.Unreadable, Why: what + " can't be read: " + err.Error()}
}
