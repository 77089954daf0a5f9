package directory

import (
	"os"
	"path/filepath"
	"strings"

	"golang.org/x/exp/slices"
)

// IgnoresCase says whether the disk of a folder takes names for one that differ by upper and lower case alone: the folder's marker stands there under
// other letters, too. Nothing is written for that.
func IgnoresCase(path, marker string) bool {
	isThere := func(name string) bool {
		_, err := os.Lstat(filepath.Join(path, name))
		return err == nil
	}
	return ignoresCase(marker, isThere, func() ([]os.DirEntry, error) { return os.ReadDir(path) })
}

// ignoresCase says so by what is there under a name, and by what the directory lists.
func ignoresCase(marker string, isThere func(name string) bool, list func() ([]os.DirEntry, error)) bool {
	other := inOtherCase(marker)
	if other == marker || strings.ContainsAny(marker, "/\\") || !isThere(other) {
		return false
	}
	listed, err := list()
	return err == nil && slices.IndexFunc(listed, func(entry os.DirEntry) bool { return entry.Name() == other }) < 0
}

// inOtherCase gives a name in upper case, or in lower case where it stands in upper case already.
func inOtherCase(name string) string {
	if upper := strings.ToUpper(name); upper != name {
		return upper
	}
	return strings.ToLower(name)
}
