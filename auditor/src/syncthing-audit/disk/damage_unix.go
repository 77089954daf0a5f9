//go:build !linux && !windows

package disk

import "syscall"

// damages are the errors of a disk that fails.
var damages = []error{syscall.EIO, syscall.EBADMSG}
