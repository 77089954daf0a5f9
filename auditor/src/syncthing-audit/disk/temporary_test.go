package disk

import (
	"os"
	"path/filepath"
	"testing"

	"github.com/syncthing/syncthing/lib/fs"
	"syncthing-audit/adapt"
	"syncthing-audit/choice"
	"syncthing-audit/part"
)

// Names that Syncthing takes for its temporary files are passed over and counted, a user's own, too. What is below a directory of such a name is
// the folder's, as for Syncthing's scanner. Names that weren't asked for aren't counted.
func TestTemporaryNamesAreCounted(t *testing.T) {
	room := t.TempDir()
	if err := os.MkdirAll(filepath.Join(room, "b", ".syncthing.d"), 0o755); err != nil {
		t.Fatal(err)
	}
	for _, name := range []string{"a", ".syncthing.notes", "b/~syncthing~report.docx.tmp", "b/.syncthing.d/c", ".syncthing", "syncthing.tmp"} {
		if err := os.WriteFile(filepath.Join(room, name), []byte("bytes"), 0o600); err != nil {
			t.Fatal(err)
		}
	}
	for prefix, expected := range map[string]struct {
		taken     int
		temporary part.Count
	}{"": {5, part.Count{Names: 3, Bytes: 10}}, "b/": {1, part.Count{Names: 2, Bytes: 5}}, "a": {1, part.Count{}}} {
		taken := 0
		walker := &Walker{Disk: adapt.Directory(fs.NewFilesystem(fs.FilesystemTypeBasic, room)), Names: choice.Names{Prefix: prefix}, Take: func(one Found) error {
			if fs.IsTemporary(one.Name) {
				t.Errorf("%s is taken", one.Name)
			}
			taken++
			return nil
		}}
		if err := walker.Walk(); err != nil || taken != expected.taken || walker.Temporary != expected.temporary {
			t.Errorf("%q: %d, %+v, %v", prefix, taken, walker.Temporary, err)
		}
	}
}
