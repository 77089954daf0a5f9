package device

import (
	"os"
	"path/filepath"
	"strings"
	"testing"

	"github.com/syncthing/syncthing/lib/db/backend"
)

// A Syncthing that runs has the lock alone. Who reads shares it, and isn't taken for one that runs.
func TestWhoHasTheLock(t *testing.T) {
	dir := t.TempDir()
	if IsHeld(dir) || CheckRuns(dir, "") == nil {
		t.Error("an index that isn't there is in use")
	}
	index, err := backend.OpenLevelDB(filepath.Join(dir, databaseName), backend.TuningAuto)
	if err != nil {
		t.Fatal(err)
	}
	for _, err := range []error{CheckRuns(dir, ""), CheckRuns(t.TempDir(), dir)} {
		if err != nil || !IsHeld(dir) || !HoldsIndex(os.Getpid()) {
			t.Errorf("an index that is in use isn't seen to be: %v", err)
		}
	}
	index.Close()
	lock, err := lockShared(dir, filepath.Join(dir, databaseName))
	if err != nil {
		t.Fatal(err)
	}
	if err := CheckRuns(dir, ""); IsHeld(dir) || err == nil || !strings.Contains(err.Error(), "no Syncthing runs on "+dir) {
		t.Errorf("who reads is taken for a Syncthing: %v", err)
	}
	lock.Close()
	if HoldsIndex(os.Getpid()) {
		t.Error("no index is open any more")
	}
}
