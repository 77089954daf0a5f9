//go:build !linux

package directory

import "os"

// File is a file that is open to be read.
type File = *os.File
