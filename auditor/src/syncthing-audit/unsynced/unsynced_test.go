package unsynced

import (
	"os"
	"path/filepath"
	"strings"
	"testing"

	"github.com/syncthing/syncthing/lib/config"
)

// A part isn't written into a folder of the device, by whatever way that is named, nor into another one with Syncthing's marker.
func TestAPartStaysOutsideTheFolders(t *testing.T) {
	dir := t.TempDir()
	at := func(name string) string { return filepath.Join(dir, name) }
	for _, name := range []string{"docs", "docs/below", "docs-parts", "other", "other/.stfolder", "other/below"} {
		os.Mkdir(at(name), 0o755)
	}
	os.Symlink("other/below", at("away"))
	os.Symlink("docs", at("link"))
	os.WriteFile(at("docs/old"), nil, 0o644)
	os.Symlink("docs/old", at("pointing"))
	folders := []config.FolderConfiguration{{ID: "none"}, {ID: "docs", Path: at("link")}}
	for name, isIn := range map[string]bool{"docs/new": true, "docs/old": true, "docs/below/new": true, "link/new": true, "pointing": true,
		"docs-parts/new": false, "new": false} {
		err := CheckFile(at(name), folders)
		if (err != nil) != isIn || isIn && !strings.Contains(err.Error(), "would be in folder docs") {
			t.Errorf("%s: %v", name, err)
		}
	}
	for _, name := range []string{"other/new", "other/below/new", "away/new"} {
		err := CheckFile(at(name), folders)
		if err == nil || !strings.Contains(err.Error(), "/other (.stfolder is there), whose devices would all get it: name a file elsewhere") {
			t.Errorf("%s: %v", name, err)
		}
	}
}
