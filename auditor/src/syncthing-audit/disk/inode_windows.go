package disk

import (
	"os"
	"syscall"
	"time"
)

// fileOf tells a file apart by when it was made. Windows tells its number only once it is opened, and no time of its last change by that. So a
// write that puts the file's time and length back isn't seen.
func fileOf(about os.FileInfo) (inode, time.Time, bool) {
	said, is := about.Sys().(*syscall.Win32FileAttributeData)
	if !is {
		return inode{}, time.Time{}, false
	}
	return inode{number: uint64(said.CreationTime.Nanoseconds())}, time.Time{}, true
}

// linksOf gives no links: they aren't told by what was found.
func linksOf(os.FileInfo) (inode, int64) { return inode{}, 0 }

// TellsLinks says whether the system tells how many links a file has.
const TellsLinks = false
