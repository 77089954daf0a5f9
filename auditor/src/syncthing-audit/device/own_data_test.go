package device

import (
	"os"
	"path/filepath"
	"reflect"
	"testing"

	"github.com/syncthing/syncthing/lib/config"
	"github.com/syncthing/syncthing/lib/db/backend"
	"golang.org/x/exp/slices"
	"syncthing-audit/shell"
)

// Syncthing's own data in a folder are told, but for what .stignore ignores, and but for those elsewhere.
func TestOwnDataInAFolder(t *testing.T) {
	for why, one := range map[string]struct {
		home, data, ignored string
		told                []string
	}{
		"a home in the folder":       {home: "docs/home", told: []string{"index-v0.14.0.db", "config.xml", "csrftokens.txt", "syncthing.log"}},
		"the folder is the home":     {home: "docs", told: []string{"index-v0.14.0.db", "config.xml", "csrftokens.txt", "syncthing.log"}},
		"a home beside it":           {home: "docs2"},
		"a database in it":           {home: "docs2", data: "docs/data", told: []string{"index-v0.14.0.db"}},
		"a home that is ignored":     {home: "docs/home", ignored: "/home\n"},
		"an index that is ignored":   {home: "docs/home", ignored: "index-*\n", told: []string{"config.xml", "csrftokens.txt", "syncthing.log"}},
		"a folder below the home":    {home: "."},
		"a home and a database here": {home: "docs/home", data: "docs/data", ignored: "home\n", told: []string{"index-v0.14.0.db"}},
	} {
		room := t.TempDir()
		home := &Home{Dir: filepath.Join(room, one.home)}
		if one.data != "" {
			home.data = filepath.Join(room, one.data)
		}
		home.Config.Folders = []config.FolderConfiguration{folderIn(t, "docs", filepath.Join(room, "docs"))}
		if err := os.WriteFile(filepath.Join(room, "docs", nameOfPatterns), []byte(one.ignored), 0o600); err != nil {
			t.Fatal(err)
		}
		var told []string
		for _, name := range one.told {
			told = append(told, "Syncthing's own "+name)
		}
		if made := home.writersOf("docs"); !reflect.DeepEqual(made, told) {
			t.Errorf("%s: %v", why, made)
		}
	}
}

// The program that runs on an index is the one that has its lock open, and is looked for where a Syncthing may run.
func TestTheProgramThatRuns(t *testing.T) {
	dir := t.TempDir()
	index, err := backend.OpenLevelDB(filepath.Join(dir, databaseName), backend.TuningAuto)
	if err != nil {
		t.Fatal(err)
	}
	own, err := os.Executable()
	if err != nil {
		t.Fatal(err)
	}
	if program := (&Home{Dir: dir, isLive: true}).program(); program != own {
		t.Errorf("%q, not %q", program, own)
	}
	if program := (&Home{Dir: dir}).program(); program != "" {
		t.Errorf("of a stopped device: %q", program)
	}
	home := &Home{Dir: dir, isLive: true}
	home.Config.Folders = []config.FolderConfiguration{folderIn(t, "docs", filepath.Dir(own))}
	if told := home.writersOf("docs"); !slices.Contains(told, "Syncthing's own "+shell.Quoted(filepath.Base(own))) { // the home may be there, too
		t.Errorf("%q", told)
	}
	index.Close()
	if program := (&Home{Dir: dir, isLive: true}).program(); program != "" {
		t.Errorf("of nobody: %q", program)
	}
}
