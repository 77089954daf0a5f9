package device

import (
	"bytes"
	"errors"
	"fmt"
	"os"
	"path/filepath"
	"time"

	"github.com/syncthing/syncthing/lib/fs"
	"github.com/syncthing/syncthing/lib/ignore"
	"golang.org/x/text/unicode/norm"
	"syncthing-audit/adapt"
	"syncthing-audit/regular"
)

// nameOfPatterns is the file with a folder's patterns.
const nameOfPatterns = ".stignore"

// Patterns gives the folder's patterns of names to ignore.
func (i *Index) Patterns() (*ignore.Matcher, error) {
	matcher, err := patternsIn(adapt.Filesystem(i.Config.Filesystem, nil))
	if err != nil {
		return nil, fmt.Errorf("folder %s: %w", i.Config.ID, err)
	}
	return matcher, nil
}

// patternsIn gives the patterns of a folder's directory. Without a file of patterns nothing is ignored. A file that is there
// and can't be read, or that includes one which can't, is an error: nobody knows then what would be ignored. So is a file
// that not all versions of Syncthing take for the same: 1.29 brings patterns into Unicode's form NFC, and 1.19 doesn't.
func patternsIn(disk fs.Filesystem) (*ignore.Matcher, error) {
	files := &files{Filesystem: disk}
	patterns := ignore.New(files)
	if _, err := disk.Lstat(nameOfPatterns); errors.Is(err, os.ErrNotExist) {
		return patterns, nil
	}
	if err := patterns.Load(nameOfPatterns); err != nil {
		return nil, fmt.Errorf("%s/%s can't be read: %w", disk.URI(), nameOfPatterns, err)
	}
	if files.odd != "" {
		return nil, fmt.Errorf("%s/%s has a pattern that isn't in Unicode's form NFC, which Syncthing 1.19 and 1.29 take otherwise: write it "+
			"in that form, or take it out", disk.URI(), files.odd)
	}
	return patterns, nil
}

// mostOfPatterns is how many bytes a file of patterns has at most.
const mostOfPatterns = 16 << 20

// files are those of a directory, and tell of one that was opened and isn't in Unicode's form NFC.
type files struct {
	fs.Filesystem
	odd string
}

// Type says that these aren't plain files: else Syncthing's package opens by itself what is included from outside the folder.
func (f *files) Type() fs.FilesystemType { return fs.FilesystemTypeFake }

// patternFile is a file that was read.
type patternFile struct {
	fs.File
	text  *bytes.Reader
	about os.FileInfo
}

func (p *patternFile) Read(into []byte) (int, error) { return p.text.Read(into) }
func (p *patternFile) Close() error                  { return nil }
func (p *patternFile) Stat() (fs.FileInfo, error)    { return &when{about: p.about}, nil }

// when has the time of a file.
type when struct {
	fs.FileInfo
	about os.FileInfo
}

func (w *when) ModTime() time.Time { return w.about.ModTime() }

// Open reads a file.
func (f *files) Open(name string) (fs.File, error) {
	text, about, err := regular.Read(filepath.Join(f.URI(), name), mostOfPatterns)
	if err != nil {
		return nil, err
	}
	if !norm.NFC.IsNormal(text) {
		f.odd = name
	}
	return &patternFile{text: bytes.NewReader(text), about: about}, nil
}
