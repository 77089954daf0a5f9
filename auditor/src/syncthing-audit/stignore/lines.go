// Package stignore says which names a folder's .stignore keeps out of it, without Syncthing's own packages: other systems than Linux lack these here.
// Tests compare it with Syncthing's.
package stignore

import (
	"bufio"
	"errors"
	"fmt"
	"io/fs"
	"os"
	"path/filepath"
	"strings"

	"syncthing-audit/directory"
	"syncthing-audit/regular"
)

// File is where a folder's patterns stand.
const File = ".stignore"

// Read reads the lines of a folder's .stignore, and those of files that it includes, each at the place of its '#include'. Syncthing heeds a line once.
// A folder without the file has no lines. Lines go into a part, and an included file may come from another device. So nothing outside the folder is read:
// it may be a private key. Syncthing reads it.
func Read(folder string) ([]string, error) {
	path := filepath.Join(folder, File)
	if _, err := os.Stat(path); errors.Is(err, fs.ErrNotExist) {
		return nil, nil
	}
	root, err := filepath.EvalSymlinks(folder)
	if err == nil {
		root, err = filepath.Abs(root)
	}
	if err != nil {
		return nil, reason(err)
	}
	reading := &reading{root: root, leads: os.Geteuid() != 0, seen: map[string]bool{}, files: map[string]bool{}}
	err = reading.file(path)
	return reading.lines, err
}

// reading is of one .stignore.
type reading struct {
	root  string // the folder's directory, without symlinks
	leads bool   // whether the .stignore itself may lead out of it
	lines []string
	seen  map[string]bool
	files map[string]bool
	bytes int // of all files
}

// mostOfLines is how many bytes all files have together at most: other devices may send one that is included, and a part's head is to have room for the lines.
const mostOfLines = 4 << 20

var errManyLines = fmt.Errorf("it has over %d bytes, with what it includes", mostOfLines)

// checkInside says whether an open file isn't in the folder. The .stignore itself is no device's but this one's: its user may have it lead elsewhere, and
// root doesn't follow that.
func (r *reading) checkInside(file *os.File) error {
	if len(r.files) == 1 && r.leads {
		return nil
	}
	at, err := directory.PathOf(file)
	if err == nil && !strings.HasPrefix(at, strings.TrimSuffix(r.root, string(filepath.Separator))+string(filepath.Separator)) {
		err = errors.New("it is outside the folder, where this program reads nothing")
	}
	return err
}

// file reads a file.
func (r *reading) file(path string) error {
	if r.files[path] {
		return fmt.Errorf("%s is included twice", filepath.Base(path))
	}
	r.files[path] = true
	file, _, err := regular.Open(path)
	if err == nil {
		defer file.Close()
		err = r.checkInside(file)
	}
	if err != nil {
		return fmt.Errorf("%s can't be read: %w", filepath.Base(path), reason(err))
	}
	scanner, lines := bufio.NewScanner(file), []string{} // which takes no longer line than Syncthing's does
	for scanner.Scan() {
		if r.bytes += len(scanner.Bytes()) + len("\n"); r.bytes > mostOfLines {
			return errManyLines
		}
		lines = append(lines, strings.TrimSpace(scanner.Text()))
	}
	if err := scanner.Err(); err != nil {
		return fmt.Errorf("%s can't be read: %w", filepath.Base(path), reason(err))
	}
	for _, line := range lines {
		if err := r.line(path, line); err != nil {
			return err
		}
	}
	return nil
}

// reason gives what the system says, without the path: a part tells none.
func reason(err error) error {
	var at *fs.PathError
	if errors.As(err, &at) {
		return at.Err
	}
	return err
}

// line reads a line of a file.
func (r *reading) line(path, line string) error {
	if r.seen[line] || line == "" || strings.HasPrefix(line, "//") {
		return nil
	}
	r.seen[line] = true
	line = filepath.ToSlash(line)
	if !strings.HasPrefix(line, "#include") {
		r.lines = append(r.lines, line)
		return nil
	}
	_, included, _ := strings.Cut(line, " ")
	if included = strings.TrimSpace(included); included == "" {
		return errors.New("an '#include' names no file")
	}
	return r.file(filepath.Join(filepath.Dir(path), filepath.FromSlash(included)))
}
