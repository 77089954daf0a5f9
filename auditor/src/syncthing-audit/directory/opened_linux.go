package directory

import "os"

// PathOf gives where an open file is: the kernel says it, so that no symlink is swapped between.
func PathOf(file *os.File) (string, error) { return os.Readlink(Proc(file)) }
