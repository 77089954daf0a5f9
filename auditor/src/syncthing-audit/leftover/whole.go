package leftover

import (
	"errors"
	"fmt"
	"os"
	"path/filepath"
	"syscall"

	"golang.org/x/sys/unix"
)

// Unnamed makes a file in that place for this run alone. It has no name, so it is gone with the program, however that ends.
func Unnamed() (*os.File, error) {
	if file := nameless(Place()); file != nil {
		return file, nil
	}
	mutex.Lock()
	defer mutex.Unlock()
	file, err := os.CreateTemp(Place(), prefixOfFile)
	if err == nil {
		os.Remove(file.Name())
	}
	return file, err
}

// nameless is withoutName; in tests a file system has no such files.
var nameless = withoutName

// withoutName makes a file without a name; nothing where a file system has none such, or where it couldn't get one later.
func withoutName(directory string) *os.File {
	number, err := unix.Open(directory, unix.O_TMPFILE|unix.O_RDWR|unix.O_CLOEXEC, 0o600)
	if err != nil {
		return nil
	}
	file := os.NewFile(uintptr(number), directory)
	if _, err := os.Readlink(procOf(file)); err != nil {
		file.Close()
		return nil
	}
	return file
}

// procOf gives the path by which an open file gets a name.
func procOf(file *os.File) string { return fmt.Sprintf("/proc/self/fd/%d", file.Fd()) }

// Whole is a file that gets its name once it is whole. Till then it has none, or where a file system knows no such files one that is locked.
type Whole struct {
	*os.File
	path string // its name for now, if it has one
}

// NewWhole makes such a file in a directory, and takes away what killed runs left there.
func NewWhole(directory string) (*Whole, error) {
	sweep(directory, prefixOfFile)
	if file := nameless(directory); file != nil {
		return &Whole{File: file}, nil
	}
	mutex.Lock()
	defer mutex.Unlock()
	for try := 0; try < mostTries; try++ {
		file, err := os.CreateTemp(directory, prefixOfFile)
		if err != nil {
			return nil, err
		}
		locked := syscall.Flock(int(file.Fd()), syscall.LOCK_EX|syscall.LOCK_NB)
		if isAt(file, file.Name()) && !errors.Is(locked, syscall.EWOULDBLOCK) {
			paths[file.Name()] = struct{}{}
			return &Whole{file, file.Name()}, nil
		}
		os.Remove(file.Name()) // a run that started took it for one without a maker, or it can't be seen that none did
		file.Close()
	}
	return nil, errTaken
}

// Put has the file stand at a path, in place of another file that is there, once all its bytes are on the disk.
func (w *Whole) Put(path string) error {
	return w.putBy(w.put, path)
}

// PutNew has the file stand at a path at which nothing is, once all its bytes are on the disk. Where something is there, that stays, and the error
// is os.ErrExist.
func (w *Whole) PutNew(path string) error {
	return w.putBy(w.putNew, path)
}

// putBy puts it, and has it be on the disk before and after that.
func (w *Whole) putBy(put func(string) error, path string) error {
	if err := w.Sync(); err != nil && !errors.Is(err, syscall.EINVAL) && !errors.Is(err, syscall.ENOTSUP) {
		return err
	}
	mutex.Lock()
	defer mutex.Unlock()
	err := put(path)
	if err == nil {
		syncDirectory(filepath.Dir(path))
	}
	return err
}

func (w *Whole) putNew(path string) error {
	if w.path == "" {
		return w.link(path)
	}
	return os.Link(w.path, path) // its other name goes as it is dropped
}

func (w *Whole) put(path string) error {
	if w.path == "" {
		err := w.link(path)
		if !errors.Is(err, os.ErrExist) {
			return err
		}
		if err := w.name(filepath.Dir(path)); err != nil {
			return err
		}
	}
	if err := os.Rename(w.path, path); err != nil {
		return err
	}
	delete(paths, w.path)
	return nil
}

// link gives a file without a name this one, at which nothing is.
func (w *Whole) link(path string) error {
	err := unix.Linkat(unix.AT_FDCWD, procOf(w.File), unix.AT_FDCWD, path, unix.AT_SYMLINK_FOLLOW)
	if err != nil {
		return &os.PathError{Op: "link", Path: path, Err: err}
	}
	return nil
}

// name gives a file without a name one for a moment, since what gets a name takes no other file's place. It is locked before.
func (w *Whole) name(directory string) error {
	_ = syscall.Flock(int(w.Fd()), syscall.LOCK_EX|syscall.LOCK_NB) // without one it isn't taken away, as nobody gets a lock there
	for try := 0; ; try++ {
		path := filepath.Join(directory, fmt.Sprintf("%s%d-%d", prefixOfFile, os.Getpid(), try))
		err := w.link(path)
		if err == nil {
			w.path, paths[path] = path, struct{}{}
		}
		if !errors.Is(err, os.ErrExist) {
			return err
		}
	}
}

// syncDirectory has the names in a directory be on the disk, as far as its file system does that.
func syncDirectory(path string) {
	if directory, err := os.Open(path); err == nil {
		_ = directory.Sync() // the file is there; one that doesn't know this keeps names as it does
		directory.Close()
	}
}

// Drop takes the file away where it wasn't put, and closes it.
func (w *Whole) Drop() {
	if w.path != "" {
		Remove(w.path)
	}
	w.Close()
}
