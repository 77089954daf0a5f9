//go:build !linux

package directory

import (
	"os"
	"path/filepath"
)

// PathOf gives where an open file is, by the path at which it was opened.
func PathOf(file *os.File) (string, error) { return filepath.EvalSymlinks(file.Name()) }
