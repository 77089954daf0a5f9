package exported

import (
	"io"
	"os"
	"path/filepath"
	"testing"

	"syncthing-audit/exit"
	"syncthing-audit/finding"
	"syncthing-audit/rows"
)

// Until an export is whole, none of its documents has its name: a run that is killed leaves nothing that looks like all of them. They are for their user
// alone, since they have the names of files.
func TestNoDocumentStandsBeforeAllDo(t *testing.T) {
	room := filepath.Join(t.TempDir(), "documents")
	to := &outlet{directory: room}
	named := func() []string {
		found, _ := filepath.Glob(filepath.Join(room, "[^.]*"))
		return found
	}
	for count := 0; count < 2; count++ {
		if err := to.take(&rows.Piece{Folder: "docs", Written: []byte("{}\n")}); err != nil || len(named()) != 0 {
			t.Errorf("%v, and there are %v", err, named())
		}
	}
	if err := to.end(&finding.Answer{}, io.Discard); err != nil || len(named()) != 3 {
		t.Errorf("%v, and there are %v", err, named())
	}
	to.drop()
	entries, _ := os.ReadDir(room)
	for _, entry := range entries {
		if about, err := entry.Info(); err != nil || about.Mode() != 0o600 {
			t.Errorf("%s: %v, %v", entry.Name(), about.Mode(), err)
		}
	}
	if len(entries) != 3 {
		t.Errorf("there are %v", entries)
	}
}

// What came into the directory meanwhile stays, and no document stands beside it.
func TestAnExportTakesNoOthersPlace(t *testing.T) {
	room := t.TempDir()
	to := &outlet{directory: room}
	if err := to.take(&rows.Piece{Folder: "docs", Written: []byte("{}\n")}); err != nil {
		t.Fatal(err)
	}
	if err := os.WriteFile(filepath.Join(room, RestName), []byte("another's"), 0o600); err != nil {
		t.Fatal(err)
	}
	err := to.end(&finding.Answer{}, io.Discard)
	to.drop()
	entries, _ := os.ReadDir(room)
	if exit.Of(err, io.Discard, io.Discard) != exit.Refused || len(entries) != 1 {
		t.Errorf("%v, and there are %v", err, entries)
	}
}
