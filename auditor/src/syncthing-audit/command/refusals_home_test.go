package command

import (
	"os"
	"path/filepath"
	"regexp"
	"strings"
	"syscall"
	"testing"

	"syncthing-audit/history"
	"syncthing-audit/looks"
)

// emptyHistory makes a history in which nothing was read. LevelDB writes into it whenever it is opened, so it is in no room that is compared.
func emptyHistory(t *testing.T) string {
	directory := filepath.Join(t.TempDir(), "history")
	kept, err := history.Open(directory)
	if err == nil {
		err = kept.Close()
	}
	if err != nil {
		t.Fatal(err)
	}
	return directory
}

// ofAHome are refusals of a device's home. It stands outside the room: Syncthing's database writes into it whenever it is opened.
var ofAHome = []aRefusal{
	{"refused: %s %s", "is a directory: name a file", func(t *testing.T, room string) []string { return makingPart(homeOf(t, "x", nil), room) }},
	{"refused: %s would be in folder %s, %s", "", func(t *testing.T, _ string) []string {
		home := homeOf(t, "x", nil)
		return makingPart(home, filepath.Join(filepath.Dir(home), "files/a.part"))
	}},
	{"refused: %s: its index is that of Syncthing 2 (%s), which isn't read", "", func(t *testing.T, room string) []string {
		home := homeOf(t, "x", nil)
		if err := os.RemoveAll(filepath.Join(home, "index-v0.14.0.db")); err != nil {
			t.Fatal(err)
		}
		with(t, filepath.Join(home, "index-v2/main.db"), "")
		return makingPart(home, filepath.Join(room, "a.part"))
	}},
	{"refused: %s: it has an index of Syncthing 1 and one of Syncthing 2, which isn't read: if Syncthing 1 runs on it, ", "", func(t *testing.T, room string) []string {
		home := homeOf(t, "x", nil)
		with(t, filepath.Join(home, "index-v2/main.db"), "")
		return makingPart(home, filepath.Join(room, "a.part"))
	}},
	{"refused: %s: version %d is of a newer Syncthing than those that are read (up to %d)", "", func(t *testing.T, room string) []string {
		return makingPart(reconfigured(t, `<configuration version="\d+"`, `<configuration version="9999"`), filepath.Join(room, "a.part"))
	}},
	{"refused: %w, and a home is left out: %v", "no index", func(t *testing.T, _ string) []string {
		return []string{"check", "--folder", "pics", "--home", homeOf(t, "x", nil), "--home", unopenedHomes["no index"](t)}
	}},
	{"refused: %s: folder %s is at %s in config.xml, and no --map has that: say where it is on this machine, as --map %s=DIR", "files", func(t *testing.T, room string) []string {
		return append(makingPart(homeOf(t, "x", nil), filepath.Join(room, "a.part")), "--map", "/elsewhere=/x")
	}},
	{"refused: what nights left in %s can't be read: %w", "", func(t *testing.T, room string) []string {
		state := filepath.Dir(with(t, filepath.Join(room, "state/nights.json"), "{"))
		return []string{"report", "--html", filepath.Join(room, "a.html"), "--watch", watchOf(t, state)}
	}},
	{"refused: the device has no folder", "", func(t *testing.T, room string) []string {
		return makingPart(reconfigured(t, `(?s)<folder id="docs".*?</folder>`, ""), filepath.Join(room, "a.part"))
	}},
	{"refused: the key %s: %w", "", func(t *testing.T, room string) []string {
		return append(makingPart(homeOf(t, "x", nil), filepath.Join(room, "a.part")), "--sign", with(t, filepath.Join(room, "file"), "no key"))
	}},
	{"refused: the tokens have none of this device, %s: make its first look with --begin", "", func(t *testing.T, room string) []string {
		tokens := with(t, filepath.Join(room, "tokens"), looks.Token(idOf(9), strings.Repeat("0", 32))+"\n")
		return append(makingPart(homeOf(t, "x", nil), filepath.Join(room, "a.part")), "--end", "--tokens", tokens)
	}},
	{"refused: Syncthing runs on %s (%w). Stop it, which pausing it or its ", "", func(t *testing.T, room string) []string {
		home := homeOf(t, "x", nil)
		lock, err := os.OpenFile(filepath.Join(home, "index-v0.14.0.db/LOCK"), os.O_RDWR, 0)
		if err == nil {
			t.Cleanup(func() { lock.Close() })
			err = syscall.Flock(int(lock.Fd()), syscall.LOCK_EX|syscall.LOCK_NB)
		}
		if err != nil {
			t.Fatal(err)
		}
		return makingPart(home, filepath.Join(room, "a.part"))
	}},
}

func makingPart(home, to string) []string { return []string{"part", "--home", home, "-o", to} }

// reconfigured makes a home whose configuration has something else in place of what fits a pattern.
func reconfigured(t *testing.T, pattern, other string) string {
	home := homeOf(t, "x", nil)
	path := filepath.Join(home, "config.xml")
	text, err := os.ReadFile(path)
	if err != nil {
		t.Fatal(err)
	}
	changed := regexp.MustCompile(pattern).ReplaceAllString(string(text), other)
	if changed == string(text) {
		t.Fatalf("%s doesn't fit", pattern)
	}
	with(t, path, changed)
	return home
}

// linkTo makes a symlink in a room, and gives its path.
func linkTo(t *testing.T, room, target string) string {
	path := filepath.Join(room, "link")
	if err := os.Symlink(target, path); err != nil {
		t.Fatal(err)
	}
	return path
}
