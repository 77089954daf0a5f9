package device

import (
	"os"
	"path/filepath"
	"strings"
	"syscall"
	"testing"

	"github.com/syncthing/syncthing/lib/config"
	"github.com/syncthing/syncthing/lib/db"
	"github.com/syncthing/syncthing/lib/db/backend"
)

// Where the index can't be copied, the variable is told that names another place.
func TestACopyWithoutAPlace(t *testing.T) {
	database := t.TempDir()
	if err := os.Mkdir(filepath.Join(database, databaseName), 0o700); err != nil {
		t.Fatal(err)
	}
	if err := os.WriteFile(filepath.Join(database, databaseName, "LOCK"), nil, 0o600); err != nil {
		t.Fatal(err)
	}
	t.Setenv("TMPDIR", "/nowhere")
	home := &Home{Dir: database}
	err := home.openIndex()
	home.Close()
	if err == nil || !strings.Contains(err.Error(), "can't be copied to /nowhere (TMPDIR may name another directory)") {
		t.Error(err)
	}
}

// What can't be read as a home is told with what that may come from.
func TestHintsOnAHome(t *testing.T) {
	file := filepath.Join(t.TempDir(), "config.xml")
	if err := os.WriteFile(file, nil, 0o600); err != nil {
		t.Fatal(err)
	}
	for _, dir := range []string{t.TempDir(), file, filepath.Join(file, "nowhere")} {
		if _, err := readAbout(dir, nil); err == nil || !strings.Contains(err.Error(), "is this a Syncthing home? "+SaysWhere) {
			t.Errorf("%s: %v", dir, err)
		}
	}
	err := withHint(&os.PathError{Op: "open", Path: "/home/ann/cert.pem", Err: syscall.EACCES})
	if err.Error() != "open /home/ann/cert.pem: permission denied: a home is for its own user alone: run this as the user whose Syncthing it is" {
		t.Error(err)
	}
	if err := withHint(syscall.EIO); err != syscall.EIO {
		t.Error(err)
	}
}

// A folder whose disk isn't mounted is refused with what to look at, and with the way to the other folders.
func TestAFolderThatIsNotThere(t *testing.T) {
	empty := t.TempDir()
	t.Setenv("HOME", empty)
	for path, told := range map[string]string{
		empty:                           empty + " has no .stfolder, by which Syncthing knows the folder: is its disk mounted?",
		"~/nowhere":                     "there is no " + empty + "/nowhere (~/nowhere in config.xml, and ~ is that of the user who runs this): is its",
		filepath.Join(empty, "nowhere"): "there is no " + empty + "/nowhere: is its disk mounted? If Syncthing runs in a container, --map says where its directory is. --folder chooses other folders",
	} {
		folder := config.FolderConfiguration{ID: "docs", Path: path, MarkerName: ".stfolder"}
		_, err := (&Home{}).Index(folder)
		if err == nil || !strings.HasPrefix(err.Error(), "folder docs: ") || !strings.Contains(err.Error(), told) {
			t.Errorf("%s: %v", path, err)
		}
	}
}

// An index of a later Syncthing, whose form isn't known here, is refused with the home and with what it is of.
func TestAnIndexOfALaterSyncthing(t *testing.T) {
	directory := t.TempDir()
	index, err := backend.OpenLevelDB(directory, backend.TuningAuto)
	if err != nil {
		t.Fatal(err)
	}
	about := db.NewMiscDataNamespace(index)
	if err := about.PutInt64("dbVersion", 1000); err != nil {
		t.Fatal(err)
	}
	if err := about.PutString("dbMinSyncthingVersion", "v1.99.0"); err != nil {
		t.Fatal(err)
	}
	index.Close()
	home := &Home{Dir: "laptop-home", copied: directory}
	err = home.openCopy()
	home.backend.Close()
	if err == nil || !strings.HasPrefix(err.Error(), "refused: laptop-home: ") || !strings.Contains(err.Error(), "v1.99.0") {
		t.Error(err)
	}
}

// What is no certificate, or no configuration, is told with its place.
func TestFilesOfAHomeThatAreNone(t *testing.T) {
	for told, texts := range map[string][2]string{
		"cert.pem: no certificate":              {"none", "<configuration version=\"37\"></configuration>"},
		"cert.pem: no certificate ":             {"-----BEGIN KEY-----\nAAAA\n-----END KEY-----\n", "<configuration version=\"37\"></configuration>"},
		"config.xml: XML syntax error":          {"-----BEGIN CERTIFICATE-----\nAAAA\n-----END CERTIFICATE-----\n", "<configuration"},
		"config.xml: version 22 is too old":     {"-----BEGIN CERTIFICATE-----\nAAAA\n-----END CERTIFICATE-----\n", "<configuration version=\"22\"></configuration>"},
		"config.xml: no such file or directory": {"-----BEGIN CERTIFICATE-----\nAAAA\n-----END CERTIFICATE-----\n", ""},
	} {
		dir := t.TempDir()
		for place, name := range []string{"cert.pem", "config.xml"} {
			if texts[place] == "" {
				continue
			}
			if err := os.WriteFile(filepath.Join(dir, name), []byte(texts[place]), 0o600); err != nil {
				t.Fatal(err)
			}
		}
		_, _, err := About(dir)
		if err == nil || !strings.Contains(err.Error(), dir+"/"+strings.TrimSpace(told)) {
			t.Errorf("%v, not %s", err, told)
		}
		if _, again := ReadConfig(dir); again == nil || again.Error() != err.Error() {
			t.Errorf("%v, not %v", again, err)
		}
	}
	if _, err := attributesIn([]byte("<configuration")); err == nil {
		t.Error("a configuration that is cut off has folders")
	}
}
