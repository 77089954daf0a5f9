// Package directory says what is asked of a folder's directory. Syncthing's own packages answer where its index is read; where no package of it is
// there, the system does.
package directory

import (
	"os"
	"time"
)

// Directory is a folder's directory. Names are relative to it, with slashes.
type Directory interface {
	URI() string // its path
	DirNames(name string) ([]string, error)
	Lstat(name string) (Info, error)
	ReadSymlink(name string) (string, error)
	About(name string) (os.FileInfo, error) // what the system says of a name
	OpenToRead(name string) (File, error)   // a file, and no symlink
}

// Info is what stands under a name.
type Info interface {
	IsDir() bool
	IsRegular() bool
	IsSymlink() bool
	Size() int64
	ModTime() time.Time // as Syncthing sees it, where its index is read
	Permissions() uint32
	About() os.FileInfo // what the system said of it at the same look
}
