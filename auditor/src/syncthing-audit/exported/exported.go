package exported

import (
	"bufio"
	"encoding/json"
	"errors"
	"fmt"
	"io"
	"path/filepath"

	"syncthing-audit/finding"
	"syncthing-audit/part"
	"syncthing-audit/regular"
)

// RestName is the file beside exported documents. It has what no document says, in lines of JSON. The first line is an
// exported. Behind it stand the long lists of its answer.
const RestName = "rest.jsonl"

// exported is what an export into a directory leaves there beside the documents.
type exported struct {
	Found     *finding.Answer // a program of 0.17 or before wrote it otherwise, as Answer, and finds none here
	Documents []exportedDocument
}

// exportedDocument is one of the documents.
type exportedDocument struct {
	File, Folder string
	Own          string    `json:",omitempty"` // as join.Folder has it
	Sum          part.Hash // of its bytes: with it begins the answer to this document, and to no other one
}

// write writes what no document says.
func (e *exported) write(file io.Writer) error {
	to := bufio.NewWriter(file)
	lines := json.NewEncoder(to)
	if err := lines.Encode(e); err != nil {
		return err
	}
	if err := e.Found.WriteLists(lines); err != nil {
		return err
	}
	return to.Flush()
}

// readExported reads what an export left in a directory.
func readExported(directory string) (*exported, error) {
	path := filepath.Join(directory, RestName)
	file, _, err := regular.Open(path)
	if err != nil {
		return nil, fmt.Errorf("refused: 'export --into' fills a directory for 'sum': %w", err)
	}
	defer file.Close()
	read := &exported{}
	if err := read.readFrom(json.NewDecoder(bufio.NewReader(file))); err != nil {
		return nil, fmt.Errorf("refused: %s isn't what 'export' writes: %w", path, err)
	}
	return read, nil
}

// readFrom reads the lines that save writes.
func (e *exported) readFrom(lines *json.Decoder) error {
	if err := lines.Decode(e); err != nil {
		return err
	}
	if e.Found == nil {
		return errors.New("a program of 0.17 or before made it: make the export anew")
	}
	for _, document := range e.Documents {
		if document.Sum == (part.Hash{}) {
			return errors.New("a program of 0.21 or before made it: make the export anew")
		}
	}
	return e.Found.ReadLists(lines)
}
