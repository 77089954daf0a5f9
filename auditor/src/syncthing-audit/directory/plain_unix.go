//go:build !windows

package directory

import "syscall"

// What the system has.
const (
	HasPermissions = true
	HasSymlinks    = true
)

var errNoDirectory error = syscall.ENOTDIR

// rootOf gives the path of a folder's directory.
func rootOf(path string) string { return path }
