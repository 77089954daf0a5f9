package adapt

import (
	"os"

	"github.com/syncthing/syncthing/lib/fs"
	"syncthing-audit/directory"
)

// Beneath are a folder's files as Syncthing sees them, of which nothing outside the folder's directory is told.
type Beneath struct {
	fs.Filesystem
	inside *directory.Beneath
	opened *os.File      // the directory that names were looked up in last
	files  fs.Filesystem // of that
}

// NewBeneath gives these files of a file system.
func NewBeneath(files fs.Filesystem) *Beneath {
	return &Beneath{Filesystem: files, inside: directory.NewBeneath(files.URI())}
}

// DirNames gives the names in a directory.
func (b *Beneath) DirNames(name string) ([]string, error) { return b.inside.DirNames(name) }

// Lstat says what stands under a name.
func (b *Beneath) Lstat(name string) (info fs.FileInfo, err error) {
	err = b.inside.Above(name, "lstat", func(opened *os.File, base string) error {
		if base == "." {
			info, err = b.Filesystem.Lstat(".")
			return err
		}
		if b.opened != opened {
			b.opened, b.files = opened, fs.NewFilesystem(fs.FilesystemTypeBasic, directory.Proc(opened))
		}
		info, err = b.files.Lstat(base)
		return err
	})
	return info, err
}

// ReadSymlink gives a symlink's target.
func (b *Beneath) ReadSymlink(name string) (string, error) { return b.inside.ReadSymlink(name) }

// Info gives what the system says of a name.
func (b *Beneath) Info(name string) (os.FileInfo, error) { return b.inside.About(name) }

// OpenToRead opens a file to be read.
func (b *Beneath) OpenToRead(name string) (directory.File, error) { return b.inside.OpenToRead(name) }
