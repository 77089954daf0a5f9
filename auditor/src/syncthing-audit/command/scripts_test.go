package command

import (
	"bytes"
	"fmt"
	"math/rand"
	"os"
	"os/exec"
	"path/filepath"
	"strings"
	"testing"

	"syncthing-audit/disk"
	"syncthing-audit/exit"
	"syncthing-audit/fixture"
	"syncthing-audit/gather"
	"syncthing-audit/unsynced"
)

// Scripts come beside each form of the answer, and change neither it nor its status. Each is one that sh reads.
func TestScriptsBesideAnAnswer(t *testing.T) {
	fixture.UseAuditor(t)
	parts := writtenDrawn(t, drawnWith(t, true))
	for _, form := range [][]string{nil, {"--json"}, {"--lines"}} {
		words := append([]string{"check"}, append(form, parts...)...)
		directory := filepath.Join(t.TempDir(), "scripts")
		var without, with, log bytes.Buffer
		status := Run(words, &without, &bytes.Buffer{})
		if again := Run(append(words, "--script", directory), &with, &log); again != status || with.String() != without.String() {
			t.Errorf("%q: status %d, not %d; %s", form, again, status, log.String())
		}
		entries, err := os.ReadDir(directory)
		if err != nil || len(entries) == 0 || !strings.Contains(log.String(), directory) {
			t.Errorf("%q: %d scripts: %v: %s", form, len(entries), err, log.String())
		}
		for _, entry := range entries {
			path := filepath.Join(directory, entry.Name())
			if said, err := exec.Command("sh", "-n", path).CombinedOutput(); err != nil {
				t.Errorf("%s: %v: %s", path, err, said)
			}
			if about, err := entry.Info(); err != nil || about.Mode() != 0o600 {
				t.Errorf("%s: %v: %v", path, about.Mode(), err)
			}
		}
	}
}

// No script is written over something, or into a folder of Syncthing; an answer without steps has none.
func TestWhereNoScriptsCome(t *testing.T) {
	fixture.UseAuditor(t)
	parts := writtenDrawn(t, drawnWith(t, true))
	full, synced, file := t.TempDir(), t.TempDir(), filepath.Join(t.TempDir(), "file")
	for _, path := range []string{filepath.Join(full, "x"), filepath.Join(synced, unsynced.Marker), file} {
		if err := os.WriteFile(path, nil, 0o600); err != nil {
			t.Fatal(err)
		}
	}
	for directory, why := range map[string]string{full: "something is in", filepath.Join(synced, "below"): "Syncthing folder", file: "not a directory"} {
		var output, log bytes.Buffer
		if status := Run(append([]string{"check", "--script", directory}, parts...), &output, &log); status != exit.Refused || !strings.Contains(log.String(), why) || output.Len() > 0 {
			t.Errorf("%s: status %d: %s%s", directory, status, output.String(), log.String())
		}
	}
	directory := filepath.Join(t.TempDir(), "scripts")
	var output, log bytes.Buffer
	alone := writtenDrawn(t, drawnWith(t, false))
	Run(append([]string{"check", "--script", directory}, alone...), &output, &log)
	if _, err := os.Lstat(directory); !os.IsNotExist(err) || !strings.Contains(log.String(), "no steps") {
		t.Error(err, log.String())
	}
}

// drawnWith draws devices of which the answer has plans, or has none.
func drawnWith(t *testing.T, plans bool) []*drawn {
	for seed := int64(1); seed < 100; seed++ {
		devices := drawChain(t, rand.New(rand.NewSource(seed)), 2)
		if told := answerOfDrawn(t, devices, false).Folders[0].Outlook; told != nil && len(told.Plans) > 0 == plans {
			return devices
		}
	}
	t.Fatal("no answer is so")
	return nil
}

// writtenDrawn writes the devices' parts.
func writtenDrawn(t *testing.T, devices []*drawn) []string {
	pool := disk.NewPool(2)
	defer pool.Close()
	room, words := t.TempDir(), []string{}
	for place, device := range devices {
		stream := (&gather.Device{ID: device.id, Runs: device.runs, Folders: []gather.Folder{device}, Pool: pool}).Stream()
		words = append(words, writtenPart(t, room, fmt.Sprint(place), stream))
		stream.Close()
	}
	return words
}
