// Package fault is of what was asked for and can't be written.
package fault

import (
	"errors"
	"fmt"
	"io"
	"io/fs"
	"os"
)

// Unwritten says that what was asked for can't be written: a part, documents or an answer.
type Unwritten struct{ cause error }

func (f *Unwritten) Error() string { return f.cause.Error() }

func (f *Unwritten) Unwrap() error { return f.cause }

// Of makes a fault of an error, if there is one.
func Of(err error) error {
	if err == nil {
		return nil
	}
	return &Unwritten{err}
}

// Writer is a writer whose errors are faults.
type Writer struct{ To io.Writer }

func (f Writer) Write(data []byte) (int, error) {
	count, err := f.To.Write(data)
	return count, Of(err)
}

// InPlaceOf is a file that is written in place of another one, for now. Its errors name the one that was asked for.
type InPlaceOf struct {
	Path string
	File *os.File
}

func (i InPlaceOf) Write(data []byte) (int, error) {
	count, err := i.File.Write(data)
	return count, NamedAs(i.Path, err)
}

// NamedAs gives an error of a file with another file's name.
func NamedAs(path string, err error) error {
	var at *fs.PathError
	if errors.As(err, &at) {
		return &fs.PathError{Op: at.Op, Path: path, Err: at.Err}
	}
	return err
}

// IsOfFile says whether an error names this file itself.
func IsOfFile(err error, path string) bool {
	var at *fs.PathError
	return errors.As(err, &at) && at.Path == path
}

// Temporary is a file of the temporary directory. Its errors say how another directory is chosen.
type Temporary struct{ To io.Writer }

func (t Temporary) Write(data []byte) (int, error) {
	count, err := t.To.Write(data)
	if err != nil {
		err = fmt.Errorf("%w (TMPDIR may name another directory)", err)
	}
	return count, err
}
