//go:build !linux

package disk

import "syncthing-audit/directory"

// isTimeCut says that no time is: these systems have times of 64 bits, also for programs of 32 bits.
func isTimeCut(directory.Directory, string) bool { return false }
