//go:build darwin || freebsd

package disk

import (
	"os"
	"syscall"
	"time"
)

// fileOf gives which file was found, and when it was last changed in any way, by the system.
func fileOf(about os.FileInfo) (inode, time.Time, bool) {
	said, is := about.Sys().(*syscall.Stat_t)
	if !is {
		return inode{}, time.Time{}, false
	}
	return inode{uint64(said.Dev), said.Ino}, time.Unix(said.Ctimespec.Unix()), true
}
