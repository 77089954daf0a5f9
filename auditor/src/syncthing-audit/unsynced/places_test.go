package unsynced

import (
	"errors"
	"os"
	"path/filepath"
	"strings"
	"syscall"
	"testing"

	"github.com/syncthing/syncthing/lib/config"
	"syncthing-audit/device"
	"syncthing-audit/directory"
	"syncthing-audit/join"
	"syncthing-audit/part"
)

// Documents and a history stand in no folder of a device or a home, nor in one with Syncthing's marker, however deep below it they would be. Each folder is
// told with its label and with whose it is.
func TestDirectoriesStayOutsideTheFolders(t *testing.T) {
	room := t.TempDir()
	at := func(name string) string { return filepath.Join(room, name) }
	for _, name := range []string{"docs/a/b/c", "pics/a/b/c", "other/.stfolder", "other/a/b/c", "free/a/b"} {
		if err := os.MkdirAll(at(name), 0o755); err != nil {
			t.Fatal(err)
		}
	}
	if err := os.Symlink("docs/a", at("link")); err != nil {
		t.Fatal(err)
	}
	place, err := directory.Place(at("docs"))
	if err != nil {
		t.Fatal(err)
	}
	devices := []*join.Device{{Head: &part.Head{Name: "nas", Device: "AAAAAAA-B", Folders: []part.Folder{{ID: "none", Directory: "elsewhere"}}}},
		{Head: &part.Head{Name: "laptop", Device: "CCCCCCC-D", Folders: []part.Folder{{ID: "none", Directory: "elsewhere"}, {ID: "docs", Label: "Papers", Directory: place}}}}}
	homes := []*device.Home{{Dir: "/homes/first"}, {Dir: "/homes/second", Config: config.Configuration{Folders: []config.FolderConfiguration{{ID: "pics", Label: "Photos", Path: at("pics")}}}}}
	const why = ", whose devices would all get the history: name a directory elsewhere"
	for name, told := range map[string]string{
		"free/a/b/new": "", "docs-more": "",
		"docs": "folder docs (Papers) of laptop (CCCCCCC)", "docs/new": "folder docs (Papers) of laptop (CCCCCCC)", "docs/a/b/c/new/er": "folder docs (Papers) of laptop (CCCCCCC)",
		"link/new": "folder docs (Papers) of laptop (CCCCCCC)",
		"pics":     "folder pics (Photos) of /homes/second", "pics/a/b/c/new": "folder pics (Photos) of /homes/second", "other/a/b/c": "the Syncthing folder " + at("other") + " (.stfolder is there)",
	} {
		err := CheckDirectory(at(name), "the history", devices, homes)
		if due := "refused: " + at(name) + " would be in " + told + why; (err == nil) != (told == "") || err != nil && err.Error() != due {
			t.Errorf("%s: %v, not %s", name, err, due)
		}
	}
	if err := CheckDirectory(at("docs/new"), "the history", nil, nil); err != nil {
		t.Errorf("a folder of no one: %v", err)
	}
}

// What can't be looked at is in no folder, and isn't passed over: where it is below a file, the error names it.
func TestPlacesThatCannotBeLookedAt(t *testing.T) {
	room := t.TempDir()
	file, loop := filepath.Join(room, "file"), filepath.Join(room, "loop")
	if err := os.WriteFile(file, nil, 0o600); err != nil {
		t.Fatal(err)
	}
	if err := os.Symlink("loop", loop); err != nil {
		t.Fatal(err)
	}
	for _, check := range []func(string) error{func(path string) error { return CheckFile(path, nil) }, func(path string) error { return CheckDirectory(path, "", nil, nil) }} {
		if err := check(file + "/below"); !errors.Is(err, syscall.ENOTDIR) || !strings.Contains(err.Error(), file+"/below") {
			t.Errorf("below a file: %v", err)
		}
		if err := check(loop); err == nil || strings.HasPrefix(err.Error(), "refused") {
			t.Errorf("a loop: %v", err)
		}
	}
	if isSame(room, filepath.Join(room, "none")) || isSame(filepath.Join(room, "none"), room) || !isSame(room, room+"/.") || isSame(room, os.TempDir()) {
		t.Error("directories are taken for others")
	}
}

// A file to which the output goes is told by its path; what is none, or stands there no more, by nothing.
func TestWhereTheOutputGoes(t *testing.T) {
	room := t.TempDir()
	open := func(name string) *os.File {
		file, err := os.Create(filepath.Join(room, name))
		if err != nil {
			t.Fatal(err)
		}
		t.Cleanup(func() { file.Close() })
		return file
	}
	there, gone, replaced, closed := open("there"), open("gone"), open("replaced"), open("closed")
	_ = os.Remove(gone.Name())
	open("gone (deleted)") // as Linux calls the one that is gone
	_ = os.Remove(replaced.Name())
	open("replaced")
	closed.Close()
	from, to, err := os.Pipe()
	if err != nil {
		t.Fatal(err)
	}
	defer from.Close()
	defer to.Close()
	for file, path := range map[*os.File]string{there: there.Name(), gone: "", replaced: "", closed: "", to: ""} {
		if found := FileOf(file); found != path {
			t.Errorf("%s: %q, not %q", file.Name(), found, path)
		}
	}
	if found := FileOf(&strings.Builder{}); found != "" {
		t.Errorf("%q", found)
	}
}
