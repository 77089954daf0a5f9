//go:build !windows

package disk

import (
	"os"
	"syscall"
)

// linksOf gives which file was found, and how many links it has.
func linksOf(about os.FileInfo) (inode, int64) {
	said, is := about.Sys().(*syscall.Stat_t)
	if !is {
		return inode{}, 0
	}
	return inode{uint64(said.Dev), said.Ino}, int64(said.Nlink)
}

// TellsLinks says whether the system tells how many links a file has.
const TellsLinks = true
