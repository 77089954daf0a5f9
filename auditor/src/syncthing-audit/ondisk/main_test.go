package main

import (
	"os"
	"path/filepath"
	"strings"
	"testing"

	"syncthing-audit/bep"
	"syncthing-audit/part"
)

// said gives the status of a command, and what it writes and says.
func said(words ...string) (int, string, string) {
	var output, log strings.Builder
	status := run(words, &output, &log)
	return status, output.String(), log.String()
}

// What can't be done is told with its status, and leaves the file that was there, and nothing else.
func TestStatuses(t *testing.T) {
	room, token := t.TempDir(), bep.ID{7: 1}.String()+":00112233445566778899aabbccddeeff"
	docs, written := filepath.Join(room, "docs"), filepath.Join(room, "part")
	if err := os.MkdirAll(filepath.Join(docs, ".stfolder"), 0o755); err != nil {
		t.Fatal(err)
	}
	if err := os.WriteFile(filepath.Join(docs, "a"), []byte("a"), 0o644); err != nil {
		t.Fatal(err)
	}
	if err := os.WriteFile(written, []byte("older"), 0o600); err != nil {
		t.Fatal(err)
	}
	folder := "docs=" + docs
	for _, row := range []struct {
		words  []string
		status int
		told   string
	}{
		{[]string{"--after", token, folder}, statusUsage, "-o FILE is missing"},
		{[]string{"--after", token, "-o", written}, statusUsage, "no folder is given"},
		{[]string{"--after", token, "-o", filepath.Join(docs, "part"), folder}, statusRefused, "in a folder of Syncthing"},
		{[]string{"--after", token, "-o", written, "docs=" + room}, statusRefused, "has no .stfolder"},
		{[]string{"--after", token, "-o", room, folder}, statusRefused, "is no file"},
		{[]string{"--after", token, "-o", filepath.Join(room, "none/part"), folder}, statusFault, "no such file"},
	} {
		status, output, told := said(row.words...)
		if status != row.status || output != "" || !strings.Contains(told, row.told) {
			t.Errorf("%q: %d, %s", row.words, status, told)
		}
	}
	if text, err := os.ReadFile(written); err != nil || string(text) != "older" {
		t.Errorf("%q, %v", text, err)
	}
	if status, output, _ := said("--help"); status != statusDone || output != usage {
		t.Errorf("--help: %d", status)
	}
	if status, output, _ := said("--version"); status != statusDone || output != "syncthing-audit-disk of no release\n" {
		t.Errorf("--version: %d, %s", status, output)
	}
	if status, _, told := said("--after", token, "-o", written, folder); status != statusDone || !strings.Contains(told, "1 names, 1 bytes hashed") {
		t.Errorf("%d, %s", status, told)
	}
	file, err := os.Open(written)
	if err != nil {
		t.Fatal(err)
	}
	defer file.Close()
	if reader, err := part.NewReader(file); err != nil || reader.Head().Half == nil {
		t.Errorf("what is written: %v", err)
	}
	if left, err := filepath.Glob(filepath.Join(room, ".syncthing-audit-disk-*")); err != nil || len(left) > 0 {
		t.Errorf("%q is left, %v", left, err)
	}
}
