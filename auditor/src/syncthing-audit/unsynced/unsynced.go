// Package unsynced sees that nothing this program writes stands in a folder of Syncthing, where all its devices would get it.
package unsynced

import (
	"errors"
	"fmt"
	"io"
	"os"
	"path/filepath"
	"syscall"

	"github.com/syncthing/syncthing/lib/config"
	"syncthing-audit/adapt"
	"syncthing-audit/device"
	"syncthing-audit/directory"
	"syncthing-audit/fault"
	"syncthing-audit/join"
	"syncthing-audit/part"
	"syncthing-audit/shell"
)

// CheckFile says whether a part would be written into a folder of Syncthing: it would be found there, and sent to others. It is one of these
// folders of the device, or another one.
func CheckFile(path string, folders []config.FolderConfiguration) error {
	real, err := realOf(path)
	if err != nil {
		return err
	}
	return checkAbove(path, filepath.Dir(real), "whose devices would all get it: name a file elsewhere", func(above string) string {
		return folderOf(above, folders)
	})
}

// folderOf gives the folder whose directory this is, of these; nothing where it is none of them.
func folderOf(directory string, folders []config.FolderConfiguration) string {
	for _, folder := range folders {
		if isFolder(directory, folder) {
			return shell.Folder(folder.ID, folder.Label)
		}
	}
	return ""
}

// isFolder says whether this directory is that of a folder.
func isFolder(directory string, folder config.FolderConfiguration) bool {
	return folder.Path != "" && isSame(directory, adapt.Filesystem(folder.Filesystem, nil).URI())
}

// Marker is what Syncthing makes in the directory of each folder.
const Marker = ".stfolder"

// CheckDirectory says whether documents or a history would be written into a folder of Syncthing: all its devices would get them. It is a folder of
// these devices, whether it is asked for or not, or another one.
func CheckDirectory(directory, what string, devices []*join.Device, homes []*device.Home) error {
	real, err := realOf(directory)
	if err != nil {
		return fault.Of(err)
	}
	return checkAbove(directory, real, "whose devices would all get "+what+": name a directory elsewhere", func(above string) string {
		if device, folder := folderAt(above, devices); folder != nil {
			return shell.Folder(folder.ID, folder.Label) + " of " + device.Called()
		}
		for _, home := range homes {
			if folder := folderOf(above, home.Config.Folders); folder != "" {
				return folder + " of " + home.Dir
			}
		}
		return ""
	})
}

// checkAbove says whether what would be at a path would be in a folder of Syncthing: this directory or one above it is a folder's. Those that
// are known are told by what their directories are, and not by their paths, of which there may be several; others by their markers.
func checkAbove(path, directory, why string, known func(directory string) string) error {
	for _, above := range upwards(directory) {
		if folder := known(above); folder != "" {
			return fmt.Errorf("refused: %s would be in folder %s, %s", shell.Quoted(path), folder, why)
		}
		if _, err := os.Lstat(filepath.Join(above, Marker)); err == nil {
			return fmt.Errorf("refused: %s would be in the Syncthing folder %s (%s is there), %s", shell.Quoted(path), shell.Quoted(above), Marker, why)
		}
	}
	return nil
}

// folderAt gives the folder whose directory this is, and its device, where one of these has it on this machine.
func folderAt(path string, devices []*join.Device) (*join.Device, *part.Folder) {
	number, err := directory.Place(path)
	if err != nil {
		return nil, nil
	}
	for _, device := range devices {
		for place := range device.Head.Folders {
			if device.Head.Folders[place].Directory == number {
				return device, &device.Head.Folders[place]
			}
		}
	}
	return nil, nil
}

// realOf gives a path without symlinks, also that of something that isn't there yet.
func realOf(path string) (string, error) {
	real, err := filepath.EvalSymlinks(path)
	if above := filepath.Dir(path); os.IsNotExist(err) && above != path {
		real, err = realOf(above)
		real = filepath.Join(real, filepath.Base(path))
	}
	if errors.Is(err, syscall.ENOTDIR) {
		return "", &os.PathError{Op: "open", Path: path, Err: syscall.ENOTDIR} // EvalSymlinks doesn't say where
	}
	if err != nil {
		return "", err
	}
	return filepath.Abs(real)
}

// upwards gives a directory and all above it.
func upwards(directory string) []string {
	directories := []string{directory}
	for above := filepath.Dir(directory); above != directory; above = filepath.Dir(above) {
		directories, directory = append(directories, above), above
	}
	return directories
}

// isSame says whether two paths lead to one directory.
func isSame(path, other string) bool {
	about, err := os.Stat(path)
	if err != nil {
		return false
	}
	there, err := os.Stat(other)
	return err == nil && os.SameFile(about, there)
}

// FileOf gives the path of a file that a shell has the output go to; nothing where it goes to a pipe or a device, say.
func FileOf(output io.Writer) string {
	file, is := output.(*os.File)
	if !is {
		return ""
	}
	about, err := file.Stat()
	if err != nil || !about.Mode().IsRegular() {
		return ""
	}
	path, err := os.Readlink(fmt.Sprintf("/proc/self/fd/%d", file.Fd()))
	if err != nil {
		return ""
	}
	if there, err := os.Stat(path); err != nil || !os.SameFile(about, there) {
		return ""
	}
	return path
}
