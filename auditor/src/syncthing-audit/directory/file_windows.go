package directory

import (
	"os"
	"syscall"
)

// noReparse has Windows open a symlink itself, and not what it leads to (FILE_FLAG_OPEN_REPARSE_POINT).
const noReparse = 0x00200000

// OpenFile opens a file to be read, and no symlink. Others may write, rename and delete it meanwhile, as Syncthing does.
func OpenFile(path string) (File, error) {
	text, err := syscall.UTF16PtrFromString(path)
	if err != nil {
		return nil, &os.PathError{Op: "open", Path: path, Err: err}
	}
	const shared = syscall.FILE_SHARE_READ | syscall.FILE_SHARE_WRITE | syscall.FILE_SHARE_DELETE
	handle, err := syscall.CreateFile(text, syscall.GENERIC_READ, shared, nil, syscall.OPEN_EXISTING, syscall.FILE_ATTRIBUTE_NORMAL|noReparse, 0)
	if err != nil {
		return nil, &os.PathError{Op: "open", Path: path, Err: err}
	}
	return os.NewFile(uintptr(handle), path), nil
}
