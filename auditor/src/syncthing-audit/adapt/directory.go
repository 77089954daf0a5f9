package adapt

import (
	"os"
	"path/filepath"
	"syscall"
	"time"

	"github.com/syncthing/syncthing/lib/fs"
	"syncthing-audit/directory"
)

// Directory gives Syncthing's files as a folder's directory.
func Directory(files fs.Filesystem) directory.Directory { return synced{files} }

type synced struct{ fs.Filesystem }

// Lstat says what stands under a name.
func (s synced) Lstat(name string) (directory.Info, error) {
	if beneath, is := s.Filesystem.(*Beneath); is { // of these Syncthing sees what the system says
		about, err := beneath.Info(name)
		if err != nil {
			return nil, err
		}
		return directory.InfoOf(about), nil
	}
	info, err := s.Filesystem.Lstat(name)
	if err != nil {
		return nil, err
	}
	about, err := s.aboutOf(name, info)
	if err != nil {
		return nil, err
	}
	return syncedInfo{info, about}, nil
}

// aboutOf gives what the system said of a name as Syncthing looked at it. Where Syncthing's file doesn't tell, it is asked anew.
func (s synced) aboutOf(name string, info fs.FileInfo) (os.FileInfo, error) {
	if timed, is := info.(*timedInfo); is {
		info = timed.FileInfo
	}
	system, is := info.(interface{ Sys() interface{} })
	if !is {
		return s.About(name)
	}
	said, is := system.Sys().(*syscall.Stat_t)
	if !is {
		return s.About(name)
	}
	return lookedAt{info, said}, nil
}

// lookedAt is what the system said of a name.
type lookedAt struct {
	info fs.FileInfo
	said *syscall.Stat_t
}

func (l lookedAt) Name() string       { return l.info.Name() }
func (l lookedAt) Size() int64        { return l.info.Size() }
func (l lookedAt) Mode() os.FileMode  { return os.FileMode(l.info.Mode()) }
func (l lookedAt) ModTime() time.Time { return time.Unix(l.said.Mtim.Unix()) }
func (l lookedAt) IsDir() bool        { return l.info.IsDir() }
func (l lookedAt) Sys() interface{}   { return l.said }

// About gives what the system says of a name. No directory that was swapped for a symlink leads to that of something else.
func (s synced) About(name string) (os.FileInfo, error) {
	if beneath, is := s.Filesystem.(interface {
		Info(name string) (os.FileInfo, error)
	}); is {
		return beneath.Info(name)
	}
	return os.Lstat(filepath.Join(s.URI(), name))
}

// OpenToRead opens a file to be read, and no symlink.
func (s synced) OpenToRead(name string) (directory.File, error) {
	if beneath, is := s.Filesystem.(interface {
		OpenToRead(name string) (directory.File, error)
	}); is {
		return beneath.OpenToRead(name)
	}
	return directory.OpenFile(filepath.Join(s.URI(), name))
}

type syncedInfo struct {
	fs.FileInfo
	about os.FileInfo
}

// About gives what the system said.
func (s syncedInfo) About() os.FileInfo { return s.about }

// Permissions gives the bits of them alone.
func (s syncedInfo) Permissions() uint32 { return uint32(s.Mode() & fs.ModePerm) }
