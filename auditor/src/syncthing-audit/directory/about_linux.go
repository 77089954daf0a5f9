package directory

import (
	"os"
	"syscall"
	"time"

	"golang.org/x/sys/unix"
)

// about is what the system says of a name. That of the os package goes by a path. It is an Info, too.
type about struct {
	name string
	said syscall.Stat_t
}

// uninterrupted calls the system again where a signal interrupted the call, as it may where a program gives what a directory has.
func uninterrupted(call func() error) error {
	for {
		if err := call(); err != unix.EINTR {
			return err
		}
	}
}

// aboutIn asks what the system says of a name in an open directory.
func aboutIn(directory *os.File, base string) (os.FileInfo, error) {
	var said unix.Stat_t
	err := uninterrupted(func() error { return unix.Fstatat(int(directory.Fd()), base, &said, unix.AT_SYMLINK_NOFOLLOW) })
	if err != nil {
		return nil, &os.PathError{Op: "lstat", Path: base, Err: err}
	}
	return &about{base, statOf(&said)}, nil
}

// aboutFile asks what the system says of an open file.
func aboutFile(number int) (os.FileInfo, error) {
	var said unix.Stat_t
	err := uninterrupted(func() error { return unix.Fstat(number, &said) })
	if err != nil {
		return nil, err
	}
	return &about{"", statOf(&said)}, nil
}

// statOf gives what was said as the os package has it.
func statOf(said *unix.Stat_t) syscall.Stat_t {
	return syscall.Stat_t{Dev: said.Dev, Ino: said.Ino, Nlink: said.Nlink, Mode: said.Mode, Uid: said.Uid, Gid: said.Gid, Rdev: said.Rdev, Size: said.Size,
		Blksize: said.Blksize, Blocks: said.Blocks, Atim: syscall.Timespec(said.Atim), Mtim: syscall.Timespec(said.Mtim), Ctim: syscall.Timespec(said.Ctim)}
}

// What Info has besides is told by the same answer.
func (a *about) IsRegular() bool     { return a.said.Mode&unix.S_IFMT == unix.S_IFREG }
func (a *about) IsSymlink() bool     { return a.said.Mode&unix.S_IFMT == unix.S_IFLNK }
func (a *about) Permissions() uint32 { return a.said.Mode & 0o777 }
func (a *about) About() os.FileInfo  { return a }

func (a *about) Name() string       { return a.name }
func (a *about) Size() int64        { return a.said.Size }
func (a *about) ModTime() time.Time { return time.Unix(a.said.Mtim.Unix()) }
func (a *about) IsDir() bool        { return a.said.Mode&unix.S_IFMT == unix.S_IFDIR }
func (a *about) Sys() interface{}   { return &a.said }

// Mode gives the type and the permissions as the os package has them.
func (a *about) Mode() os.FileMode {
	mode := os.FileMode(a.said.Mode & 0o777)
	for _, bit := range [...]struct {
		is uint32
		of os.FileMode
	}{{unix.S_ISUID, os.ModeSetuid}, {unix.S_ISGID, os.ModeSetgid}, {unix.S_ISVTX, os.ModeSticky}} {
		if a.said.Mode&bit.is != 0 {
			mode |= bit.of
		}
	}
	switch a.said.Mode & unix.S_IFMT {
	case unix.S_IFREG:
	case unix.S_IFDIR:
		mode |= os.ModeDir
	case unix.S_IFLNK:
		mode |= os.ModeSymlink
	case unix.S_IFIFO:
		mode |= os.ModeNamedPipe
	case unix.S_IFSOCK:
		mode |= os.ModeSocket
	case unix.S_IFCHR:
		mode |= os.ModeDevice | os.ModeCharDevice
	default:
		mode |= os.ModeDevice
	}
	return mode
}
