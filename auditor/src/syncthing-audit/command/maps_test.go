package command

import (
	"os"
	"path/filepath"
	"strings"
	"testing"

	"syncthing-audit/exit"
	"syncthing-audit/fixture"
	"syncthing-audit/unsynced"
)

// containerHome makes a home that names its folder's directory as a container has it, and gives the map to it.
func containerHome(t *testing.T) (home, mapped string) {
	home = wholeHome(t)
	text, err := os.ReadFile(filepath.Join(home, "config.xml"))
	if err != nil {
		t.Fatal(err)
	}
	room := filepath.Dir(home)
	changed := strings.ReplaceAll(string(text), room, "/var/syncthing")
	if changed == string(text) {
		t.Fatal("it names its paths otherwise")
	}
	with(t, filepath.Join(home, "config.xml"), changed)
	return home, "/var/syncthing=" + room
}

// Each command finds the files of a container's home where the map says, and refuses the home with a map that hasn't them.
func TestHomesOfContainers(t *testing.T) {
	fixture.UseAuditor(t)
	home, mapped := containerHome(t)
	for _, words := range [][]string{{"part", "-o", filepath.Join(t.TempDir(), "a.part")}, {"part", "--about", "--paths"}, {"part", "--begin", "-o", filepath.Join(t.TempDir(), "b.part")},
		{"export", "--into", filepath.Join(t.TempDir(), "into")}, {"check"}} {
		due := exit.Done
		if words[0] == "check" {
			due = exit.Partial
		}
		var output, log strings.Builder
		if status := Run(append(words, "--home", home, "--map", mapped), &output, &log); status != due || strings.Contains(output.String()+log.String(), "/var/syncthing") {
			t.Errorf("%v: status %d, %s%s", words, status, output.String(), log.String())
		}
		for _, wrong := range []string{"/var/sync=" + filepath.Dir(home), "/var/syncthing/fil=" + filepath.Dir(home)} {
			output.Reset()
			log.Reset()
			if status := Run(append(words, "--home", home, "--map", wrong), &output, &log); status != exit.Refused || !strings.Contains(log.String(), "no --map has that") {
				t.Errorf("%v %s: status %d, %s", words, wrong, status, log.String())
			}
		}
	}
	status, told, _ := toldOfHomes([]string{"check"}, wholeHome(t), home)
	if status != exit.Partial || !strings.Contains(told, "/var/syncthing/files") || strings.Contains(told, "0 bytes hashed on one, one") {
		t.Errorf("without a map: status %d, %s", status, told)
	}
}

// Nothing is written into a folder of a container's home, wherever that is mounted.
func TestAFolderOfAContainerIsKnown(t *testing.T) {
	home, mapped := containerHome(t)
	files := filepath.Join(home, "../files")
	removeAll(t, filepath.Join(files, unsynced.Marker))
	with(t, filepath.Join(files, "marker"), "")
	text, err := os.ReadFile(filepath.Join(home, "config.xml"))
	if err != nil {
		t.Fatal(err)
	}
	with(t, filepath.Join(home, "config.xml"), strings.ReplaceAll(string(text), unsynced.Marker, "marker"))
	for _, words := range [][]string{{"part", "-o", filepath.Join(files, "a.part")}, {"part", "-o", filepath.Join(t.TempDir(), "a.part"), "--sign", filepath.Join(files, "key")}} {
		var log strings.Builder
		if status := Run(append(words, "--home", home, "--map", mapped), &log, &log); status != exit.Refused || !strings.Contains(log.String(), "would be in folder") {
			t.Errorf("%v: status %d, %s", words, status, log.String())
		}
	}
}

// Both looks at a machine by ssh are told the maps of its home.
func TestMapsGoToTheMachine(t *testing.T) {
	var output, log strings.Builder
	words := []string{"run", "nas:/volume1/docker/config", "--map", "/var/syncthing=/volume1/sync", "--map", "~=/volume1/sy nc", "laptop:", "--dry-run"}
	if status := Run(words, &output, &log); status != exit.Done {
		t.Fatal(status, log.String())
	}
	count := 0
	for _, line := range strings.Split(output.String(), "\n") {
		if is := strings.Contains(line, "--map"); is != strings.Contains(line, "/volume1/docker") {
			t.Errorf("%s", line)
		} else if is {
			count++
		}
	}
	if count < 2 || !strings.Contains(output.String(), "/var/syncthing=/volume1/sync") || !strings.Contains(output.String(), "/volume1/sy nc") {
		t.Errorf("%d, %s", count, output.String())
	}
}
