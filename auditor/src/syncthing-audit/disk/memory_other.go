//go:build !linux

package disk

import "syncthing-audit/directory"

// letGo does nothing where the system can't be asked to let go of what it has of a file in memory.
func letGo(directory.File, int64, int64) {}

// readAhead does nothing where the system can't be asked to begin to read.
func readAhead(directory.File, int64) {}
