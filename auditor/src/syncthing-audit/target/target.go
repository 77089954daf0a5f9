// Package target is where what this program writes goes: a file that is there whole or not at all, a pipe, or standard output.
package target

import (
	"bufio"
	"fmt"
	"io"
	"os"
	"path/filepath"
	"strings"
	"syscall"

	"syncthing-audit/fault"
	"syncthing-audit/leftover"
	"syncthing-audit/shell"
)

// IsStandard are the words that mean standard output. /dev/stdout is one of them: main puts standard error in its place, so a file that
// is opened by this name would be standard error.
var IsStandard = map[string]bool{"": true, "-": true, "/dev/stdout": true}

// Target is where a part goes.
type Target struct {
	path     string // not a symlink, unless it is direct
	isDirect bool   // a device or a pipe, into which the part is written as it is made
	signing  *signing
}

// Of finds what a path names. A symlink stays, and what it points to is written.
func Of(path string) (*Target, error) {
	if os.Geteuid() == 0 {
		if link := linkOfOthers(path); link != "" {
			return nil, refused(link, "is a symlink of another user, which root doesn't follow: name the file itself")
		}
	}
	about, err := os.Stat(path)
	if os.IsNotExist(err) {
		return targetOfNothing(path)
	}
	if err != nil {
		return nil, err
	}
	switch kind := about.Mode().Type(); {
	case kind == os.ModeDevice|os.ModeCharDevice || kind == os.ModeNamedPipe:
		return &Target{path: path, isDirect: true}, nil
	case kind.IsDir():
		return nil, refused(path, "is a directory: name a file")
	case !kind.IsRegular():
		return nil, refused(path, "is no file, pipe or character device: name another one")
	}
	real, err := filepath.EvalSymlinks(path)
	return &Target{path: real}, err
}

// linkOfOthers gives the first symlink on a path that isn't root's; nothing where there is none.
func linkOfOthers(path string) string {
	at := ""
	if filepath.IsAbs(path) {
		at = "/"
	}
	for _, name := range strings.Split(path, "/") {
		at = filepath.Join(at, name)
		about, err := os.Lstat(at)
		if err != nil {
			continue
		}
		if owner, is := about.Sys().(*syscall.Stat_t); is && about.Mode()&os.ModeSymlink != 0 && owner.Uid != 0 {
			return at
		}
	}
	return ""
}

// targetOfNothing is for a path at which nothing is, or a symlink to nothing.
func targetOfNothing(path string) (*Target, error) {
	if _, err := os.Lstat(path); err == nil {
		return nil, refused(path, "is a symlink to nothing: name a file")
	}
	if about, err := os.Stat(filepath.Dir(path)); err != nil || !about.IsDir() {
		return nil, refused(filepath.Dir(path), "is no directory: make it first")
	}
	return &Target{path: path}, nil
}

func refused(path, why string) error {
	return fmt.Errorf("refused: %s %s", shell.Quoted(path), why)
}

// Write writes the part: a file is there whole or not at all.
func (t *Target) Write(write func(io.Writer) error) error {
	if t.isDirect {
		file, err := os.OpenFile(t.path, os.O_WRONLY, 0)
		if err != nil {
			return fault.Of(err)
		}
		err = fill(file, t.path, write)
		if closed := file.Close(); err == nil {
			err = fault.Of(fault.NamedAs(t.path, closed))
		}
		return err
	}
	file, err := leftover.NewWhole(filepath.Dir(t.path))
	if err != nil {
		return fault.Of(fault.NamedAs(t.path, err))
	}
	defer file.Drop()
	if err := fill(file.File, t.path, write); err != nil {
		return err
	}
	putSignature, err := t.signing.sign(file.File)
	if err != nil {
		return err
	}
	// Something else may stand there by now, and to rename the file would replace it.
	if about, err := os.Lstat(t.path); err == nil && !about.Mode().IsRegular() {
		return refused(t.path, "is no file any more")
	}
	if err := putSignature(); err != nil {
		return err
	}
	return fault.Of(fault.NamedAs(t.path, file.Put(t.path)))
}

// fill writes into a file. Errors name it as this path.
func fill(file *os.File, path string, write func(io.Writer) error) error {
	buffered := bufio.NewWriter(fault.Writer{To: fault.InPlaceOf{Path: path, File: file}})
	err := write(buffered)
	if err == nil {
		err = buffered.Flush()
	}
	return err
}
