//go:build !windows

package directory

import (
	"fmt"
	"os"
	"syscall"
)

// Place gives a text that is the same for one directory of one machine alone. It follows symlinks. It says nothing else of the directory.
func Place(path string) (string, error) {
	info, err := os.Stat(path)
	if err != nil {
		return "", err
	}
	said := info.Sys().(*syscall.Stat_t)
	return placeOf(fmt.Sprintf("%d %d", said.Dev, said.Ino)), nil
}
