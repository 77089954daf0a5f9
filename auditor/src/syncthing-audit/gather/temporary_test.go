package gather

import (
	"os"
	"path/filepath"
	"testing"

	"syncthing-audit/disk"
	"syncthing-audit/part"
)

// The end of a folder counts the names that Syncthing takes for its temporary files; where there is none, it says so.
func TestAnEndCountsTemporaryNames(t *testing.T) {
	for _, expected := range []part.Count{{}, {Names: 1, Bytes: 5}} {
		room := aDirectory(t)
		if expected.Names > 0 {
			if err := os.WriteFile(filepath.Join(room, ".syncthing.notes"), []byte("notes"), 0o600); err != nil {
				t.Fatal(err)
			}
		}
		pool := disk.NewPool(1)
		defer pool.Close()
		read := &Device{Folders: []Folder{directory{room}}, Pool: pool}
		var end *part.End
		err := read.Run(read.Head(), func(line part.Line) error {
			if line.End != nil {
				end = line.End
			}
			return nil
		})
		if err != nil || end == nil || end.Names != 4 || end.Temporary == nil || *end.Temporary != expected {
			t.Errorf("%+v, %v", end, err)
		}
	}
}
