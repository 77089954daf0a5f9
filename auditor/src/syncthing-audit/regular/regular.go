// Package regular reads files at paths at which others choose what stands. It waits for no pipe, reads no device, and takes no more bytes than such a
// file has.
package regular

import (
	"errors"
	"fmt"
	"io"
	"os"
	"syscall"
)

var errOther = errors.New("it is no file")

// Open opens a file to be read. A pipe, a device and a directory are errors.
func Open(path string) (*os.File, os.FileInfo, error) {
	file, err := os.OpenFile(path, os.O_RDONLY|syscall.O_NONBLOCK, 0)
	if errors.Is(err, syscall.EWOULDBLOCK) { // a file's lease, as Samba may have one, is given back meanwhile
		file, err = openLeased(path)
	}
	if err != nil {
		return nil, nil, err
	}
	about, err := file.Stat()
	if err == nil {
		err = checkKind(path, about)
	}
	if err != nil {
		file.Close()
		return nil, nil, err
	}
	return file, about, nil
}

// openLeased opens a file once whoever has a lease of it has given that back.
func openLeased(path string) (*os.File, error) {
	about, err := os.Stat(path)
	if err == nil {
		err = checkKind(path, about)
	}
	if err != nil {
		return nil, err
	}
	return os.OpenFile(path, os.O_RDONLY, 0)
}

// checkKind says what stands there in place of a file.
func checkKind(path string, about os.FileInfo) error {
	switch {
	case about.IsDir():
		return &os.PathError{Op: "read", Path: path, Err: syscall.EISDIR}
	case !about.Mode().IsRegular():
		return &os.PathError{Op: "read", Path: path, Err: errOther}
	}
	return nil
}

// Read reads a file of at most so many bytes.
func Read(path string, most int64) ([]byte, os.FileInfo, error) {
	file, about, err := Open(path)
	if err != nil {
		return nil, nil, err
	}
	defer file.Close()
	data, err := io.ReadAll(io.LimitReader(file, most+1))
	if err == nil && int64(len(data)) > most {
		err = &os.PathError{Op: "read", Path: path, Err: fmt.Errorf("it has over %d bytes", most)}
	}
	if err != nil {
		return nil, nil, err
	}
	return data, about, nil
}
