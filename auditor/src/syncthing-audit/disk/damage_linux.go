package disk

import "syscall"

// damages are the errors of a disk, or of the file system on it, that fails.
var damages = []error{syscall.EIO, syscall.EUCLEAN, syscall.EBADMSG}
