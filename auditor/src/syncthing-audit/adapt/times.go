package adapt

import (
	"os"
	"time"

	"github.com/syncthing/syncthing/lib/fs"
	"syncthing-audit/directory"
)

// timed are files with their times as an index has them, where their disk can't keep these. 1.19 finds them there only in the time zone in
// which it kept them, and 1.29 in each one. Here they are found in each one, whichever it is built with.
type timed struct {
	fs.Filesystem          // with times by the index
	plain         *Beneath // with those of the disk
}

// DirNames gives the names in a directory.
func (t *timed) DirNames(name string) ([]string, error) { return t.plain.DirNames(name) }

// ReadSymlink gives a symlink's target.
func (t *timed) ReadSymlink(name string) (string, error) { return t.plain.ReadSymlink(name) }

// Info gives what the system says of a name.
func (t *timed) Info(name string) (os.FileInfo, error) { return t.plain.Info(name) }

// OpenToRead opens a file to be read.
func (t *timed) OpenToRead(name string) (directory.File, error) { return t.plain.OpenToRead(name) }

// Lstat says what stands under a name.
func (t *timed) Lstat(name string) (fs.FileInfo, error) {
	info, err := t.plain.Lstat(name)
	if err != nil {
		return nil, err
	}
	kept, err := fs.GetMtimeMapping(t.Filesystem, name)
	if err != nil {
		return nil, err
	}
	if kept.Real.Equal(info.ModTime()) {
		return &timedInfo{info, kept.Virtual}, nil
	}
	return info, nil
}

// timedInfo is what stands under a name, with its time by the index.
type timedInfo struct {
	fs.FileInfo
	modified time.Time
}

// ModTime gives that time.
func (t *timedInfo) ModTime() time.Time { return t.modified }
