package disk

import "syscall"

// damages are the errors of a disk, or of the file system on it, that fails: ERROR_CRC, ERROR_SECTOR_NOT_FOUND, ERROR_IO_DEVICE,
// ERROR_FILE_CORRUPT and ERROR_DISK_CORRUPT.
var damages = []error{syscall.Errno(23), syscall.Errno(27), syscall.Errno(1117), syscall.Errno(1392), syscall.Errno(1393)}
