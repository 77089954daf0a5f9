package history

import (
	"os"
	"path/filepath"
	"strings"
	"syscall"
	"testing"
	"time"
)

// LevelDB follows no symlink of a history's directory, and waits at no pipe.
func TestADirectoryThatIsHostile(t *testing.T) {
	victim := filepath.Join(t.TempDir(), "victim")
	if err := os.WriteFile(victim, []byte("v"), 0o600); err != nil {
		t.Fatal(err)
	}
	for _, name := range []string{"LOG", "CURRENT", "LOCK"} {
		for _, make := range []func(path string) error{
			func(path string) error { return os.Symlink(victim, path) },
			func(path string) error { return syscall.Mkfifo(path, 0o600) },
		} {
			room := t.TempDir()
			if err := make(filepath.Join(room, name)); err != nil {
				t.Fatal(err)
			}
			ended := timeOf(func() error { _, err := Open(room); return err })
			if ended == nil || !strings.Contains(ended.Error(), name+" is no file") {
				t.Errorf("%s: %v", name, ended)
			}
		}
	}
	if text, err := os.ReadFile(victim); err != nil || string(text) != "v" {
		t.Errorf("%q, %v", text, err)
	}
}

// timeOf gives what something ends with, if it ends.
func timeOf(do func() error) error {
	ended := make(chan error, 1)
	go func() { ended <- do() }()
	select {
	case err := <-ended:
		return err
	case <-time.After(20 * time.Second):
		return nil
	}
}

// Nobody else reads the names of files, also where the directory was there before with another mode.
func TestNobodyElseReadsAHistory(t *testing.T) {
	room := filled(t)
	entries, err := os.ReadDir(room)
	if err != nil || len(entries) < 4 {
		t.Fatal(entries, err)
	}
	for _, entry := range entries {
		if about, err := entry.Info(); err != nil || about.Mode().Perm()&0o077 != 0 {
			t.Errorf("%s: %v, %v", entry.Name(), about.Mode(), err)
		}
	}
	for _, entry := range entries { // LevelDB writes some anew as it opens them, and leaves others as they are
		if err := os.Chmod(filepath.Join(room, entry.Name()), 0o644); err != nil {
			t.Fatal(err)
		}
	}
	history, err := Open(room)
	if err != nil {
		t.Fatal(err)
	}
	defer history.Close()
	left := 0
	for _, entry := range entries {
		about, err := os.Stat(filepath.Join(room, entry.Name()))
		if os.IsNotExist(err) {
			continue
		}
		if left++; err != nil || about.Mode().Perm() != 0o600 {
			t.Errorf("%s: %v, %v", entry.Name(), about.Mode(), err)
		}
	}
	if left < 2 {
		t.Errorf("%d files are left", left)
	}
}

// Another user's directory isn't written into.
func TestADirectoryOfAnotherUser(t *testing.T) {
	if os.Geteuid() != 0 {
		t.Skip("only root makes directories of others")
	}
	room := t.TempDir()
	if err := os.Chown(room, 65534, 65534); err != nil {
		t.Fatal(err)
	}
	if _, err := Open(room); err == nil || !strings.Contains(err.Error(), "it belongs to another user") {
		t.Error(err)
	}
}

// A directory with files of something else is no history, and those stay as they are.
func TestADirectoryOfSomethingElse(t *testing.T) {
	room := t.TempDir()
	path := filepath.Join(room, "photo.jpg")
	err := os.WriteFile(path, []byte("x"), 0o600)
	if err == nil {
		err = os.Chmod(path, 0o644)
	}
	if err != nil {
		t.Fatal(err)
	}
	if _, err := Open(room); err == nil || !strings.Contains(err.Error(), "photo.jpg is no file of a history, so this is none: name a directory of its own") {
		t.Error(err)
	}
	entries, err := os.ReadDir(room)
	about, missing := os.Stat(path)
	if err != nil || missing != nil || len(entries) != 1 || about.Mode() != 0o644 {
		t.Errorf("%v, %v", entries, about)
	}
	if CheckThere(room) == nil || CheckThere(filepath.Join(room, "none")) == nil {
		t.Error("there is a history")
	}
	history, err := Open(filepath.Join(room, "history"))
	if err != nil {
		t.Fatal(err)
	}
	if err := history.Close(); err != nil || CheckThere(filepath.Join(room, "history")) != nil {
		t.Error(err)
	}
}
