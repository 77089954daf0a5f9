package directory

import (
	"io"
	"os"
	"path/filepath"

	"golang.org/x/sys/unix"
)

// File is a file that is open to be read, by its number. For each of its own files Go asks the system besides whether it is to be waited for.
type File struct {
	Number      int
	above, name string // its path, which is told where something fails
}

// OpenFile opens a file to be read, and no symlink; those above it are followed.
func OpenFile(path string) (File, error) {
	return openFile("", path, func(path string, flags int) (int, error) { return unix.Open(path, flags, 0) })
}

// openFile opens a file to be read, and no symlink. A pipe in its place would block.
func openFile(above, name string, open func(name string, flags int) (int, error)) (File, error) {
	const flags = unix.O_RDONLY | unix.O_NOFOLLOW | unix.O_CLOEXEC
	number, err := retried(open, name, flags|unix.O_NONBLOCK)
	if err == unix.EWOULDBLOCK { // a file's lease, as Samba may have one, is given back meanwhile
		number, err = retried(open, name, flags)
	}
	file := File{number, above, name}
	if err != nil {
		return file, file.failed("open", err)
	}
	return file, nil
}

func retried(open func(name string, flags int) (int, error), name string, flags int) (number int, err error) {
	err = uninterrupted(func() error {
		number, err = open(name, flags)
		return err
	})
	return number, err
}

// failed says of which file a call failed, as Go's own files do.
func (f File) failed(call string, err error) error {
	return &os.PathError{Op: call, Path: filepath.Join(f.above, f.name), Err: err}
}

// Stat gives what the system says of it.
func (f File) Stat() (os.FileInfo, error) {
	about, err := aboutFile(f.Number)
	if err != nil {
		return nil, f.failed("stat", err)
	}
	return about, nil
}

// ReadAt reads as many bytes, or says why there are fewer.
func (f File) ReadAt(to []byte, offset int64) (int, error) {
	for done := 0; ; {
		var count int
		err := uninterrupted(func() (err error) {
			count, err = unix.Pread(f.Number, to[done:], offset+int64(done))
			return err
		})
		if err != nil {
			return done, f.failed("read", err)
		}
		if done += count; done == len(to) {
			return done, nil
		}
		if count == 0 {
			return done, io.EOF
		}
	}
}

// Close closes it.
func (f File) Close() error { return unix.Close(f.Number) }
