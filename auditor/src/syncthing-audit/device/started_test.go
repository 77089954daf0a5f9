package device

import (
	"path/filepath"
	"strings"
	"testing"

	"github.com/syncthing/syncthing/lib/db/backend"
)

// openDatabase opens an index as a Syncthing that starts does.
func openDatabase(t *testing.T, database string) backend.Backend {
	made, err := backend.OpenLevelDB(database, backend.TuningAuto)
	if err != nil {
		t.Fatal(err)
	}
	return made
}

// A Syncthing can start once the index is copied. Then it is told that the index changed, also where it wrote nothing and has ended since.
func TestASyncthingThatIsStartedMeanwhile(t *testing.T) {
	home := &Home{Dir: t.TempDir()}
	database := filepath.Join(home.Dir, databaseName)
	index := openDatabase(t, database)
	if err := index.Put([]byte("key"), []byte("text")); err != nil {
		t.Fatal(err)
	}
	if err := home.copyIndex(database); err == nil || !strings.Contains(err.Error(), "refused: Syncthing runs on ") {
		t.Errorf("an index in use is copied: %v", err)
	}
	index.Close()
	if err := home.copyIndex(database); err != nil {
		t.Fatal(err)
	}
	defer home.Close()
	if err := home.checkUnchanged(); err != nil {
		t.Error(err)
	}
	openDatabase(t, database).Close()
	if err := home.checkUnchanged(); err == nil || !strings.Contains(err.Error(), "its index changed while it was read") {
		t.Errorf("a start isn't seen: %v", err)
	}
}
