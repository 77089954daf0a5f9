package leftover

import (
	"errors"
	"os"
	"path/filepath"
	"syscall"

	"golang.org/x/sys/unix"
)

// Staged are files that get their names in a directory all together, once all of them are whole. Till then they stand in a locked directory within that
// one: where the program is killed, none has its name, and the next run takes them away.
type Staged struct {
	path, to string
	names    []string
}

// NewStaged makes the directory, with those above it that aren't there, and the locked one within it.
func NewStaged(to string) (*Staged, error) {
	mutex.Lock()
	defer mutex.Unlock()
	err := makeAt(to)
	path := ""
	if err == nil {
		path, err = makeLocked(to, prefixOfFile)
	}
	if err != nil {
		removeMade()
		return nil, err
	}
	return &Staged{path: path, to: to}, nil
}

// New makes a file for its user alone, which is to have this name.
func (s *Staged) New(name string) (*os.File, error) {
	file, err := os.OpenFile(filepath.Join(s.path, name), os.O_WRONLY|os.O_CREATE|os.O_EXCL, 0o600)
	if err == nil {
		s.names = append(s.names, name)
	}
	return file, err
}

// Put gives all files their names, in the order in which they were made. All their bytes are on the disk before. Either all have their names then or none,
// but for a kill at that moment: then the last one lacks its name.
func (s *Staged) Put() error {
	mutex.Lock()
	defer mutex.Unlock()
	if err := Sync(s.path); err != nil {
		return err
	}
	for place, name := range s.names {
		if err := moveNew(filepath.Join(s.path, name), filepath.Join(s.to, name)); err != nil {
			for _, had := range s.names[:place] {
				_ = removeWhole(filepath.Join(s.to, had))
			}
			return err
		}
	}
	syncDirectory(s.to)
	s.remove()
	directories = nil
	return nil
}

// Drop takes away all files that weren't put, and the directories that were made for them if nothing else is there.
func (s *Staged) Drop() {
	mutex.Lock()
	defer mutex.Unlock()
	s.remove()
	removeMade()
}

func (s *Staged) remove() {
	removeWhole(s.path)
	unlock(s.path)
	delete(paths, s.path)
}

// Sync has all that was written be on the disk, as far as the file system does that.
func Sync(path string) error {
	directory, err := os.Open(path)
	if err != nil {
		return err
	}
	defer directory.Close()
	if err := unix.Syncfs(int(directory.Fd())); err != nil && !errors.Is(err, unix.ENOSYS) {
		return &os.PathError{Op: "syncfs", Path: path, Err: err}
	}
	return nil
}

// renaming gives a file another name; in tests a file system doesn't know it.
var renaming = unix.Renameat2

// moveNew moves a file to a path at which nothing is.
func moveNew(from, to string) error {
	err := renaming(unix.AT_FDCWD, from, unix.AT_FDCWD, to, unix.RENAME_NOREPLACE)
	if err == syscall.EINVAL || err == syscall.ENOSYS { // a file system may not know this
		if err := os.Link(from, to); err == nil || os.IsExist(err) {
			return err
		}
		return os.Rename(from, to)
	}
	if err != nil {
		return &os.LinkError{Op: "rename", Old: from, New: to, Err: err}
	}
	return nil
}
