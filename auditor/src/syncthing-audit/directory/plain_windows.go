package directory

import (
	"os"
	"path/filepath"
	"strings"
	"syscall"
)

// What the system has. Syncthing passes over symlinks on Windows.
const (
	HasPermissions = false
	HasSymlinks    = false
)

var errNoDirectory error = syscall.ENOTDIR

// A path that begins so is taken by the letter: it may be long, and its parts may be names that Windows reserves or end with a dot.
const (
	byLetter        = `\\?\`
	byLetterOnShare = `\\?\UNC\`
)

// rootOf gives the path of a folder's directory.
func rootOf(path string) string {
	switch {
	case strings.HasPrefix(path, byLetter):
		return path
	case strings.HasPrefix(path, `\\`):
		return byLetterOnShare + path[len(`\\`):]
	}
	return byLetter + path
}

// path gives the path of a name.
func (b byPath) path(name string) string {
	if name == "." {
		return b.root
	}
	return strings.TrimSuffix(b.root, `\`) + `\` + filepath.FromSlash(name)
}

// openDirectory opens a directory.
func openDirectory(path string, _ bool) (*os.File, error) { return os.Open(path) }
