//go:build !linux

package directory

import "os"

// byPath looks names up by their paths. A directory above a name that was swapped for a symlink is followed: only Linux has another way.
type byPath struct{ root string }

type inside = byPath

func insideOf(root string) inside { return byPath{root} }

// DirNames gives the names in a directory.
func (b byPath) DirNames(name string) ([]string, error) {
	opened, err := openDirectory(b.path(name), name == ".")
	if err != nil {
		return nil, err
	}
	defer opened.Close()
	return opened.Readdirnames(-1)
}

// About gives what the system says of a name.
func (b byPath) About(name string) (os.FileInfo, error) { return os.Lstat(b.path(name)) }

// OpenToRead opens a file to be read, and no symlink.
func (b byPath) OpenToRead(name string) (File, error) { return OpenFile(b.path(name)) }

// ReadSymlink gives a symlink's target.
func (b byPath) ReadSymlink(name string) (string, error) { return os.Readlink(b.path(name)) }
