package command

import (
	"io"
	"os"
	"path/filepath"
	"strings"
	"testing"

	"syncthing-audit/exit"
)

// homeWith writes a home whose one folder, docs, is at a path. Its index is there, and empty.
func homeWith(t *testing.T, folder string) string {
	home := t.TempDir()
	for name, text := range map[string]string{
		"cert.pem":   "-----BEGIN CERTIFICATE-----\nAAAA\n-----END CERTIFICATE-----\n",
		"config.xml": `<configuration version="36"><folder id="docs" path="` + folder + `"></folder></configuration>`,
	} {
		if err := os.WriteFile(filepath.Join(home, name), []byte(text), 0o600); err != nil {
			t.Fatal(err)
		}
	}
	if err := os.Mkdir(filepath.Join(home, "index-v0.14.0.db"), 0o700); err != nil {
		t.Fatal(err)
	}
	return home
}

// Where a device's index isn't found, it is refused before any file is hashed: with what to do, and with why Syncthing can't be asked where it is.
func TestWhatIsSharedOfAHomeWithoutAnIndex(t *testing.T) {
	room := t.TempDir()
	home := homeWith(t, room)
	data := filepath.Join(home, "data")
	for _, path := range []string{data, filepath.Join(room, ".stfolder")} {
		if err := os.Mkdir(path, 0o700); err != nil {
			t.Fatal(err)
		}
	}
	index := filepath.Join(home, "index-v0.14.0.db")
	for _, row := range []struct {
		to     string
		data   []string
		status int
		told   string
	}{
		{index, nil, exit.Done, ""}, {index, []string{"--data", data}, exit.Refused, data + ": no index index-v0.14.0.db"},
		{filepath.Join(data, "index-v0.14.0.db"), []string{"--data", data}, exit.Done, ""},
		{filepath.Join(data, "index-v0.14.0.db"), nil, exit.Refused, home + ": no index index-v0.14.0.db"},
	} {
		if index != row.to {
			if err := os.Rename(index, row.to); err != nil {
				t.Fatal(err)
			}
		}
		index = row.to
		var log strings.Builder
		status := Run(append([]string{"part", "--about", "-o", filepath.Join(t.TempDir(), "about"), "--home", home}, row.data...), io.Discard, &log)
		if status != row.status || !strings.Contains(log.String(), row.told) || strings.Contains(log.String(), "can't be asked") != (status == exit.Refused && row.data == nil) {
			t.Errorf("%s, %s: %d, %s", row.to, row.data, status, log.String())
		}
	}
}

// What a device shares isn't written into a folder of Syncthing, as a part isn't: neither by '-o' nor by a shell.
func TestWhatIsSharedStaysOutsideTheFolders(t *testing.T) {
	room := t.TempDir()
	folder, home := filepath.Join(room, "docs"), homeWith(t, filepath.Join(room, "docs"))
	if err := os.MkdirAll(filepath.Join(folder, ".stfolder"), 0o700); err != nil {
		t.Fatal(err)
	}
	const told = "would be in folder docs, whose devices would all get it: name a file elsewhere"
	for directory, expected := range map[string]int{folder: exit.Refused, room: exit.Done} {
		path, byShell := filepath.Join(directory, "new"), filepath.Join(directory, "by-shell")
		var log strings.Builder
		if status := Run([]string{"part", "--about", "--home", home, "-o", path}, io.Discard, &log); status != expected {
			t.Errorf("%s: status %d, %s", path, status, log.String())
		}
		if _, err := os.Stat(path); (err == nil) != (expected == exit.Done) || strings.Contains(log.String(), told) == (expected == exit.Done) {
			t.Errorf("%s: %v, %s", path, err, log.String())
		}
		to, err := os.Create(byShell)
		if err != nil {
			t.Fatal(err)
		}
		defer to.Close()
		log.Reset()
		if status := Run([]string{"part", "--about", "--home", home}, to, &log); status != expected || strings.Contains(log.String(), told) == (expected == exit.Done) {
			t.Errorf("%s: status %d, %s", byShell, status, log.String())
		}
		if text, err := os.ReadFile(byShell); err != nil || (len(text) > 0) != (expected == exit.Done) {
			t.Errorf("%s: %q, %v", byShell, text, err)
		}
	}
}
