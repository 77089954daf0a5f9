package disk

import (
	"strconv"
	"time"

	"golang.org/x/sys/unix"
	"syncthing-audit/directory"
)

// isTimeCut says whether a file's time is one that this program sees as another one: on 32-bit machines it sees the last 32 bits
// of the seconds, as a Syncthing of 32 bits does. So a time from 2038 on is one before 1970 to it.
func isTimeCut(in directory.Directory, name string) bool {
	if strconv.IntSize == 64 {
		return false
	}
	var about unix.Statx_t
	if unix.Statx(unix.AT_FDCWD, pathOf(in, name), unix.AT_SYMLINK_NOFOLLOW, unix.STATX_MTIME, &about) != nil {
		return false // a system that is too old to be asked gives no other times to any program
	}
	_, err := unix.TimeToTimespec(time.Unix(about.Mtime.Sec, 0))
	return err != nil
}
