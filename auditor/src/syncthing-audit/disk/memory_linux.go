package disk

import (
	"golang.org/x/sys/unix"
	"syncthing-audit/directory"
)

// letGo asks the system to let go of what it has of a part of a file in memory, so that this part is read from the disk:
// what was read some time ago may be right in memory still while the disk has other bytes by now. What isn't written to the
// disk yet stays, as does what a program has mapped. A file system that has a cache of its own may not heed it.
func letGo(file directory.File, offset, length int64) {
	_ = unix.Fadvise(file.Number, offset, length, unix.FADV_DONTNEED) // without it, the file is read all the same
}

// readAhead asks the system to begin to read as many bytes of a file, and doesn't wait for them.
func readAhead(file directory.File, length int64) {
	_ = unix.Fadvise(file.Number, 0, length, unix.FADV_WILLNEED) // without it, they are read once they are taken
}
