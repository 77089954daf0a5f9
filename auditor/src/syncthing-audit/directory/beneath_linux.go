package directory

import (
	"errors"
	"fmt"
	"io"
	"os"
	"path/filepath"
	"strings"
	"sync"
	"sync/atomic"

	"golang.org/x/sys/unix"
)

// Beneath opens the directories below one, in turn, of which nothing outside it is told: where a directory is swapped for a symlink while it is walked,
// that isn't followed. One directory is open at a time, and names are looked up in it.
type Beneath struct {
	path      string
	root      atomic.Pointer[os.File]
	lacks     atomic.Bool // whether the kernel has no openat2
	mutex     sync.Mutex
	directory *os.File
	at        string // its name
}

type inside = *Beneath

func insideOf(root string) inside { return NewBeneath(root) }

// NewBeneath gives what opens directories below the one at a path.
func NewBeneath(path string) *Beneath { return &Beneath{path: path} }

// What the kernel has, which another one may lack.
var (
	descriptors = "/proc/self/fd"
	openat2     = func(at int, name string, how unix.OpenHow) (int, error) { return unix.Openat2(at, name, &how) }
)

// Proc gives the path of an open file, by which the kernel goes to the very same one.
func Proc(file *os.File) string { return fmt.Sprintf("%s/%d", descriptors, file.Fd()) }

// Within does something in a directory while that is open. An error that names a path by which the kernel went names this one.
func (b *Beneath) Within(name, what, of string, do func(opened *os.File) error) error {
	b.mutex.Lock()
	defer b.mutex.Unlock()
	if err := b.enter(name); err != nil {
		return err
	}
	if err := do(b.directory); err != nil {
		return b.failed(what, of, err)
	}
	return nil
}

// failed gives an error with the path of what it is about, where it names one.
func (b *Beneath) failed(what, of string, err error) error {
	var at *os.PathError
	if errors.As(err, &at) {
		return &os.PathError{Op: what, Path: filepath.Join(b.path, of), Err: at.Err}
	}
	return err
}

// split gives the directory in which a name stands, and the name there.
func split(name string) (directory, base string) { return filepath.Split(filepath.Clean(name)) }

// Above does something in the directory in which a name stands, with the name there.
func (b *Beneath) Above(name, what string, do func(opened *os.File, base string) error) error {
	directory, base := split(name)
	return b.Within(directory, what, name, func(opened *os.File) error { return do(opened, base) })
}

// DirNames gives the names in a directory.
func (b *Beneath) DirNames(name string) (names []string, err error) {
	err = b.Within(name, "readdirent", name, func(opened *os.File) error {
		if _, err = opened.Seek(0, io.SeekStart); err == nil {
			names, err = opened.Readdirnames(0)
		}
		return err
	})
	return names, err
}

// About gives what the system says of a name. All names are asked for, so it makes nothing but the answer.
func (b *Beneath) About(name string) (os.FileInfo, error) {
	directory, base := split(name)
	b.mutex.Lock()
	defer b.mutex.Unlock()
	if err := b.enter(directory); err != nil {
		return nil, err
	}
	if base == "." {
		about, err := b.directory.Stat()
		if err != nil {
			return nil, b.failed("lstat", name, err)
		}
		return about, nil
	}
	about, err := aboutIn(b.directory, base)
	if err != nil {
		return nil, b.failed("lstat", name, err)
	}
	return about, nil
}

// ReadSymlink gives a symlink's target.
func (b *Beneath) ReadSymlink(name string) (target string, err error) {
	err = b.Above(name, "readlink", func(opened *os.File, base string) error {
		target, err = os.Readlink(filepath.Join(Proc(opened), base))
		return err
	})
	return target, err
}

// OpenToRead opens a file to be read, and no symlink. Where the kernel has openat2, none is followed on the way, either. It doesn't matter which directory
// is open meanwhile.
func (b *Beneath) OpenToRead(name string) (File, error) {
	root, err := b.openRoot()
	if err != nil {
		return File{}, err
	}
	return openFile(b.path, filepath.Clean(name), func(name string, flags int) (int, error) {
		if leadsOut(name) {
			return -1, unix.EXDEV
		}
		number, err := b.openWhole(root, name, unix.OpenHow{Flags: uint64(flags | unix.O_LARGEFILE), Resolve: unix.RESOLVE_NO_SYMLINKS})
		if err == errLacking {
			return unix.Openat(int(root.Fd()), name, flags, 0)
		}
		return number, err
	})
}

// enter opens a directory, and closes the one before. The open one is opened anew where another one was asked for between.
func (b *Beneath) enter(name string) error {
	name = filepath.Clean(name)
	if b.directory != nil && b.at == name {
		return nil
	}
	root, err := b.openRoot()
	if err != nil {
		return err
	}
	opened, err := b.open(root, name)
	if err != nil {
		return &os.PathError{Op: "open", Path: filepath.Join(b.path, name), Err: err}
	}
	if b.directory != nil {
		b.directory.Close()
	}
	b.directory, b.at = opened, name
	return nil
}

// openRoot opens the directory itself, once.
func (b *Beneath) openRoot() (*os.File, error) {
	if root := b.root.Load(); root != nil {
		return root, nil
	}
	root, err := os.OpenFile(b.path, os.O_RDONLY|unix.O_DIRECTORY, 0)
	if err != nil {
		return nil, err
	}
	if _, err := os.Stat(Proc(root)); err != nil {
		root.Close()
		return nil, fmt.Errorf("refused: a folder is read by /proc, so that no symlink is followed out of it: %w", err)
	}
	if !b.root.CompareAndSwap(nil, root) {
		root.Close()
	}
	return b.root.Load(), nil
}

// errLacking says that the kernel has no openat2, or that something forbids it.
var errLacking = errors.New("the kernel has no openat2")

// openWhole opens what stands below by one call of the kernel.
func (b *Beneath) openWhole(root *os.File, name string, how unix.OpenHow) (int, error) {
	if b.lacks.Load() {
		return -1, errLacking
	}
	number, err := openat2(int(root.Fd()), name, how)
	if err == unix.ENOSYS || err == unix.EPERM {
		b.lacks.Store(true)
		return -1, errLacking
	}
	return number, err
}

// open opens a directory below, with no symlink on the way.
func (b *Beneath) open(root *os.File, name string) (*os.File, error) {
	how := unix.OpenHow{Flags: unix.O_RDONLY | unix.O_DIRECTORY | unix.O_CLOEXEC, Resolve: unix.RESOLVE_BENEATH | unix.RESOLVE_NO_SYMLINKS}
	number, err := b.openWhole(root, name, how)
	for err == unix.EAGAIN || err == unix.EINTR { // something was renamed meanwhile
		number, err = b.openWhole(root, name, how)
	}
	switch err {
	case nil:
		return os.NewFile(uintptr(number), name), nil
	case errLacking:
		return openStepwise(int(root.Fd()), name)
	}
	return nil, err
}

// leadsOut says whether a clean name leads out of the directory.
func leadsOut(name string) bool {
	return filepath.IsAbs(name) || name == ".." || strings.HasPrefix(name, "../")
}

// openStepwise does the same where the kernel has no openat2, or where something forbids that: one directory after another.
func openStepwise(root int, name string) (*os.File, error) {
	if leadsOut(name) {
		return nil, unix.EXDEV
	}
	const flags = unix.O_DIRECTORY | unix.O_NOFOLLOW | unix.O_CLOEXEC
	steps := strings.Split(name, "/")
	at := root
	for place, step := range steps {
		kind := unix.O_PATH
		if place == len(steps)-1 {
			kind = unix.O_RDONLY
		}
		next, err := unix.Openat(at, step, flags|kind, 0)
		if at != root {
			unix.Close(at)
		}
		if err != nil {
			return nil, err
		}
		at = next
	}
	return os.NewFile(uintptr(at), name), nil
}
