package device

import (
	"os"
	"path/filepath"
	"strings"
	"testing"

	"github.com/syncthing/syncthing/lib/config"
)

// A folder may be away, paused or not. To want it all the same is a fault.
func TestFoldersThatAreAway(t *testing.T) {
	room := t.TempDir()
	for _, name := range []string{"there/.stfolder", "empty", "unmarked/photos"} {
		if err := os.MkdirAll(filepath.Join(room, name), 0o755); err != nil {
			t.Fatal(err)
		}
	}
	for _, one := range []struct {
		name, away, fault string
		isUnmarked        bool
	}{
		{"there", "", "", false},
		{"empty", "/empty has no .stfolder, by which Syncthing knows the folder", "is its disk mounted? Without the marker Syncthing stops the folder, too", false},
		{"unmarked", "/unmarked has no .stfolder, by which Syncthing knows the folder",
			"other things are there. If its disk is mounted, pause the folder, put the marker back, and audit again before the folder goes on", true},
		{"nowhere", "there is no " + room + "/nowhere", "is its disk mounted? If Syncthing runs in a container, --map says where its directory is. --folder chooses other folders", false},
	} {
		folder := config.FolderConfiguration{ID: "docs", Path: filepath.Join(room, one.name), MarkerName: ".stfolder"}
		err := CheckPath(folder)
		if (err == nil) != (one.fault == "") || err != nil && !strings.Contains(err.Error(), one.fault) {
			t.Errorf("%s: %v", one.name, err)
		}
		for _, folder.Paused = range []bool{false, true} {
			if away := Away(folder); !strings.HasSuffix(away, one.away) || (away == "") != (one.away == "") {
				t.Errorf("%s: %q", one.name, away)
			}
			if IsUnmarked(folder) != one.isUnmarked {
				t.Errorf("%s: %v", one.name, !one.isUnmarked)
			}
		}
	}
}
