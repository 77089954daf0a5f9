//go:build !windows && !linux

package directory

import (
	"errors"
	"os"
	"syscall"
)

// OpenFile opens a file to be read, and no symlink. A pipe in its place would block.
func OpenFile(path string) (File, error) {
	file, err := os.OpenFile(path, os.O_RDONLY|syscall.O_NOFOLLOW|syscall.O_NONBLOCK, 0)
	if errors.Is(err, syscall.EWOULDBLOCK) { // a file's lease, as Samba may have one, is given back meanwhile
		return os.OpenFile(path, os.O_RDONLY|syscall.O_NOFOLLOW, 0)
	}
	return file, err
}
