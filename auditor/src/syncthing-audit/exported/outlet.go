package exported

import (
	"crypto/sha256"
	"errors"
	"fmt"
	"io"
	"os"
	"path/filepath"
	"strings"

	"syncthing-audit/amount"
	"syncthing-audit/fault"
	"syncthing-audit/finding"
	"syncthing-audit/leftover"
	"syncthing-audit/outside"
	"syncthing-audit/rows"
	"syncthing-audit/shell"
)

// errSeveral says that the documents need a directory.
var errSeveral = errors.New("refused: one document hasn't room for all: --into DIR writes several, --folder and --names choose")

// outlet is where documents go: into a directory, or one alone to standard output.
type outlet struct {
	output    io.Writer
	directory string
	count     int
	kept      []byte
	written   []exportedDocument
	staged    *leftover.Staged // the files that get their names in the directory in the end
}

// checkNew says whether something else than a directory is there, or an earlier export stands in the directory, or answers to one: 'sum' would
// take these for the new documents'.
func (o *outlet) checkNew() error {
	if there, err := os.Stat(o.directory); err == nil && !there.IsDir() {
		return fmt.Errorf("refused: %s is no directory: name one", shell.Quoted(o.directory))
	}
	if _, err := os.Lstat(o.directory); err == nil {
		if _, err := os.Stat(o.directory); os.IsNotExist(err) {
			return fmt.Errorf("refused: %s is a symlink to nothing: name a directory", shell.Quoted(o.directory))
		}
	}
	for _, pattern := range []string{"cut-*.json", "cut-*.reply", RestName} {
		if there, _ := filepath.Glob(filepath.Join(globbed(o.directory), pattern)); len(there) > 0 {
			return fmt.Errorf("refused: %s has an earlier export (%s): name another directory, or take that away", shell.Quoted(o.directory),
				filepath.Base(there[0]))
		}
	}
	return nil
}

// globbed gives a path as a pattern that fits it alone.
func globbed(path string) string {
	return strings.NewReplacer(`\`, `\\`, "*", `\*`, "?", `\?`, "[", `\[`).Replace(path)
}

// take is given each document.
func (o *outlet) take(next *rows.Piece) error {
	o.count++
	if o.directory == "" {
		if o.count > 1 {
			return errSeveral
		}
		o.kept = next.Written
		return nil
	}
	name := fmt.Sprintf("cut-%04d.json", o.count)
	o.written = append(o.written, exportedDocument{name, next.Folder, next.Own, sha256.Sum256(next.Written)})
	return o.writeNew(name, func(to io.Writer) error {
		_, err := to.Write(next.Written)
		return err
	})
}

// end is given what no document says, once all of them were taken.
func (o *outlet) end(answer *finding.Answer, log io.Writer) error {
	if err := answer.Err(); err != nil {
		return err
	}
	if o.directory == "" {
		_, err := fault.Writer{To: o.output}.Write(o.kept)
		return err
	}
	if err := o.writeNew(RestName, (&exported{Found: answer, Documents: o.written}).write); err != nil {
		return err
	}
	if err := o.staged.Put(); errors.Is(err, os.ErrExist) {
		return fmt.Errorf("refused: something came into %s meanwhile: %w", shell.Quoted(o.directory), err)
	} else if err != nil {
		return fault.Of(err)
	}
	outside.Printf(log, "syncthing-audit: %s in %s\n", amount.Of(o.count, "document"), o.directory)
	return nil
}

// drop takes away what was written, and the directories that were made for that if nothing else is there.
func (o *outlet) drop() {
	if o.staged != nil {
		o.staged.Drop()
	}
}

// writeNew writes a file that gets its name once all are written: without the rest the documents have no sum, and some of them alone look like all.
func (o *outlet) writeNew(name string, write func(io.Writer) error) error {
	if o.staged == nil {
		staged, err := leftover.NewStaged(o.directory)
		if err != nil {
			return fault.Of(err)
		}
		o.staged = staged
	}
	file, err := o.staged.New(name)
	if err != nil {
		return fault.Of(err)
	}
	if err := write(fault.Writer{To: file}); err != nil {
		file.Close()
		return err
	}
	return fault.Of(file.Close())
}
