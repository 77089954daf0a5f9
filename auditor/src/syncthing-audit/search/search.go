// Package search looks in directories, such as backups, for files with bytes that were read before.
package search

import (
	"errors"
	"fmt"
	"io"
	"io/fs"
	"os"
	"path/filepath"
	"strings"

	synced "github.com/syncthing/syncthing/lib/fs"
	"golang.org/x/exp/slices"
	"syncthing-audit/adapt"
	"syncthing-audit/disk"
	"syncthing-audit/fault"
	"syncthing-audit/history"
	"syncthing-audit/outside"
	"syncthing-audit/part"
	"syncthing-audit/shell"
)

// search looks for wanted bytes in places, and counts.
type search struct {
	places              []string // as placesToSearch gives them
	wanted              []history.Reading
	pool                *disk.Pool
	output, log         io.Writer
	found, read, unread int
}

// placesToSearch gives what the named places are, behind all symlinks: a walk doesn't follow one, not even where it begins. A place that
// isn't there is refused: a search without it says nothing of it.
func placesToSearch(named []string) ([]string, error) {
	places := []string{}
	for _, name := range named {
		place, err := filepath.EvalSymlinks(name)
		if err == nil {
			place, err = filepath.Abs(place)
		}
		var about fs.FileInfo
		if err == nil {
			about, err = os.Stat(place)
		}
		if err == nil && !about.IsDir() && !about.Mode().IsRegular() {
			err = errors.New("it is no directory and no file")
		}
		if err != nil {
			return nil, fmt.Errorf("refused: %s can't be searched: %w", shell.Quoted(name), err)
		}
		places = append(places, place)
	}
	return places, nil
}

// visit looks at what a walk meets.
func (s *search) visit(path string, entry fs.DirEntry, err error) error {
	switch {
	case err != nil:
		s.pass(path, err)
		return nil
	case entry.Type()&fs.ModeSymlink != 0:
		return s.visitSymlink(path)
	case !entry.Type().IsRegular():
		return nil // a pipe or a device has no bytes of a file
	}
	has, isOfSize, err := s.hasWanted(path)
	if isOfSize {
		s.read++
	}
	if err != nil {
		s.pass(path, err)
	}
	if has == nil {
		return nil
	}
	s.found++
	return outside.Printf(fault.Writer{To: s.output}, "%s\n", shell.Path(path))
}

// visitSymlink passes a symlink that leads out of all places. What it leads to within them is looked at where it stands, and one that leads to nothing
// has no bytes.
func (s *search) visitSymlink(path string) error {
	target, err := filepath.EvalSymlinks(path)
	if os.IsNotExist(err) || err == nil && slices.IndexFunc(s.places, func(place string) bool { return isWithin(target, place) }) >= 0 {
		return nil
	}
	if err == nil {
		err = fmt.Errorf("this symlink leads to %s, which is in none of the directories", shell.Quoted(target))
	}
	s.pass(path, err)
	return nil
}

// isWithin says whether a path is another one, or below it.
func isWithin(path, above string) bool {
	return path == above || strings.HasPrefix(path, strings.TrimSuffix(above, "/")+"/")
}

// pass tells and counts what isn't looked at.
func (s *search) pass(path string, err error) {
	s.unread++
	var at *fs.PathError
	if errors.As(err, &at) {
		err = at.Err
	}
	outside.Printf(s.log, "syncthing-audit: not looked at: %s: %v\n", shell.Path(path), err)
}

// hasWanted says which of the wanted bytes a file has, if any, and whether it was read, since it has their length.
func (s *search) hasWanted(path string) (has *history.Reading, isOfSize bool, err error) {
	about, err := os.Stat(path)
	if err != nil {
		return nil, false, err
	}
	file := disk.File{Disk: adapt.Directory(synced.NewFilesystem(synced.FilesystemTypeBasic, filepath.Dir(path))), Name: filepath.Base(path), Stamp: disk.StampAt(path),
		Node: &part.Node{Size: about.Size(), ModifiedS: about.ModTime().Unix(), ModifiedNs: about.ModTime().Nanosecond()}, Longest: about.Size()}
	for _, reading := range s.wanted {
		if reading.Content.Size == about.Size() && !slices.Contains(file.BlockSizes, reading.Content.BlockSize) {
			file.BlockSizes = append(file.BlockSizes, reading.Content.BlockSize)
		}
	}
	if len(file.BlockSizes) == 0 {
		return nil, false, nil
	}
	contents, _, _, err := s.pool.Begin(file).Wait()
	if err != nil {
		return nil, false, err
	}
	for _, content := range contents {
		for place := range s.wanted {
			if s.wanted[place].Content == content {
				return &s.wanted[place], true, nil
			}
		}
	}
	return nil, true, nil
}
