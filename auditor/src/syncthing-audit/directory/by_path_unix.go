//go:build !windows && !linux

package directory

import (
	"os"
	"path/filepath"
	"syscall"
)

// path gives the path of a name.
func (b byPath) path(name string) string { return filepath.Join(b.root, name) }

// openDirectory opens a directory. One that was swapped for a symlink meanwhile isn't followed; the folder's own may be one.
func openDirectory(path string, isRoot bool) (*os.File, error) {
	flags := os.O_RDONLY | syscall.O_DIRECTORY
	if !isRoot {
		flags |= syscall.O_NOFOLLOW
	}
	return os.OpenFile(path, flags, 0)
}
