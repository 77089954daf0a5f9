package search

import (
	"bytes"
	"crypto/sha256"
	"errors"
	"io"
	"io/fs"
	"os"
	"path/filepath"
	"runtime"
	"strings"
	"syscall"
	"testing"

	"syncthing-audit/commandline"
	"syncthing-audit/disk"
	"syncthing-audit/exit"
	"syncthing-audit/history"
	"syncthing-audit/part"
)

// searched gives what a search for the bytes 'good' finds and tells in places, and its status or its refusal.
func searched(places ...string) (found, told string, status int, err error) {
	content := part.Content{Size: 4, BlockSize: 128 << 10, Hash: disk.HashOf([][32]byte{sha256.Sum256([]byte("good"))})}
	var output, log bytes.Buffer
	asked := commandline.Options{Parts: append([]string{"f"}, places...), Folders: []string{"docs"}, Jobs: 1}
	status, err = find(asked, []history.Reading{{Content: content}}, &output, &log)
	return output.String(), log.String(), status, err
}

// mustWrite writes a file and the directories above it.
func mustWrite(t *testing.T, path, text string) {
	if err := os.MkdirAll(filepath.Dir(path), 0o700); err != nil {
		t.Fatal(err)
	}
	if err := os.WriteFile(path, []byte(text), 0o600); err != nil {
		t.Fatal(err)
	}
}

// mustLink makes a symlink.
func mustLink(t *testing.T, target, path string) {
	if err := os.Symlink(target, path); err != nil {
		t.Fatal(err)
	}
}

// A directory may be named by a symlink to it, and so may a file.
func TestASymlinkIsSearched(t *testing.T) {
	room := t.TempDir()
	mustWrite(t, filepath.Join(room, "backups/f"), "good")
	for link, target := range map[string]string{"directory": "backups", "file": "backups/f"} {
		mustLink(t, target, filepath.Join(room, link))
		found, told, status, err := searched(filepath.Join(room, link))
		if err != nil || status != exit.Done || !strings.Contains(found, "backups/f") || !strings.Contains(told, "1 file of that size read, 0 not looked at") {
			t.Errorf("%s: %q, %q, %d, %v", link, found, told, status, err)
		}
	}
}

// A place that isn't there, or is no directory and no file, is refused before anything is searched.
func TestAPlaceThatIsNotThereIsRefused(t *testing.T) {
	room := t.TempDir()
	mustWrite(t, filepath.Join(room, "backups/f"), "good")
	mustLink(t, "nowhere", filepath.Join(room, "dangling"))
	if err := syscall.Mkfifo(filepath.Join(room, "pipe"), 0o600); err != nil {
		t.Fatal(err)
	}
	for _, name := range []string{"none", "dangling", "pipe", "backups/f/below"} {
		found, _, status, err := searched(filepath.Join(room, "backups"), filepath.Join(room, name))
		if err == nil || status != 0 || !strings.HasPrefix(err.Error(), "refused: ") || !strings.Contains(err.Error(), name) || found != "" {
			t.Errorf("%s: %q, %v", name, found, err)
		}
	}
}

// What isn't looked at is counted, and a search that finds nothing has the status of an answer with a limit then.
func TestWhatIsNotSearchedIsCounted(t *testing.T) {
	room, elsewhere := t.TempDir(), t.TempDir()
	mustWrite(t, filepath.Join(room, "sub/f"), "evil")
	mustWrite(t, filepath.Join(room, "sub/longer"), "longer")
	mustWrite(t, filepath.Join(elsewhere, "f"), "good")
	mustLink(t, "sub", filepath.Join(room, "inside"))
	mustLink(t, "nowhere", filepath.Join(room, "dangling"))
	if err := syscall.Mkfifo(filepath.Join(room, "pipe"), 0o600); err != nil {
		t.Fatal(err)
	}
	found, told, status, err := searched(room)
	if err != nil || found != "" || status != exit.NotSettled || !strings.Contains(told, "1 file of that size read, 0 not looked at") {
		t.Errorf("%q, %q, %d, %v", found, told, status, err)
	}
	mustLink(t, elsewhere, filepath.Join(room, "outside"))
	found, told, status, err = searched(room)
	if err != nil || found != "" || status != exit.Partial || !strings.Contains(told, "1 file of that size read, 1 not looked at") ||
		!strings.Contains(told, "outside: this symlink leads to") {
		t.Errorf("%q, %q, %d, %v", found, told, status, err)
	}
}

// newSearch gives a search for the bytes 'good', of which two readings are known, and what it tells.
func newSearch(t *testing.T) (*search, *bytes.Buffer) {
	var log bytes.Buffer
	content := part.Content{Size: 4, BlockSize: 128 << 10, Hash: disk.HashOf([][32]byte{sha256.Sum256([]byte("good"))})}
	begun := &search{wanted: []history.Reading{{Content: part.Content{Size: 4, BlockSize: 128 << 10}}, {Content: content}}, pool: disk.NewPool(1), output: &log, log: &log}
	t.Cleanup(begun.pool.Close)
	return begun, &log
}

// What the system fails to give is told with its path, once, and counted; the search goes on.
func TestWhatCannotBeLookedAtIsTold(t *testing.T) {
	room := t.TempDir()
	mustWrite(t, filepath.Join(room, "f"), "good")
	mustLink(t, "f", filepath.Join(room, "link"))
	entries, err := os.ReadDir(room)
	if err != nil {
		t.Fatal(err)
	}
	for name, fails := range map[string]func(*search, string) error{
		"closed": func(s *search, path string) error {
			return s.visit(path, nil, &fs.PathError{Op: "open", Path: path, Err: os.ErrPermission})
		},
		"closing": func(s *search, path string) error { return s.visit(path, nil, os.ErrPermission) },
		"gone":    func(s *search, path string) error { return s.visit(path, entries[0], nil) },
	} {
		begun, log := newSearch(t)
		path := filepath.Join(room, name)
		if err := fails(begun, path); err != nil || begun.unread != 1 || begun.read+begun.found != 0 || strings.Count(log.String(), path) != 1 {
			t.Errorf("%s: %v, %+v, %q", name, err, begun, log)
		}
	}
	begun, _ := newSearch(t)
	if has, isOfSize, err := begun.hasWanted(filepath.Join(room, "link")); has != nil || isOfSize || err == nil {
		t.Errorf("a file that became a symlink: %v, %v, %v", has, isOfSize, err)
	}
	if has, isOfSize, err := begun.hasWanted(filepath.Join(room, "f")); has != &begun.wanted[1] || !isOfSize || err != nil {
		t.Errorf("%v, %v, %v", has, isOfSize, err)
	}
}

// full is an output that takes nothing.
type full struct{}

func (full) Write([]byte) (int, error) { return 0, syscall.ENOSPC }

// A find that can't be told ends the search with that. A place may be named from where the search begins, and is told from the top.
func TestWhereFindsAreTold(t *testing.T) {
	room := t.TempDir()
	mustWrite(t, filepath.Join(room, "backups/f"), "good")
	here, err := os.Getwd()
	if err != nil {
		t.Fatal(err)
	}
	if err := os.Chdir(room); err != nil {
		t.Fatal(err)
	}
	defer os.Chdir(here)
	if found, _, status, err := searched("backups"); err != nil || status != exit.Done || found != filepath.Join(room, "backups/f")+"\n" {
		t.Errorf("%q, %d, %v", found, status, err)
	}
	begun, _ := newSearch(t)
	asked := commandline.Options{Parts: []string{"f", "backups"}, Folders: []string{"docs"}, Jobs: 1}
	if status, err := find(asked, begun.wanted, full{}, io.Discard); status != 0 || !errors.Is(err, syscall.ENOSPC) {
		t.Errorf("%d, %v", status, err)
	}
}

// A search leaves nothing running.
func TestASearchLeavesNothingRunning(t *testing.T) {
	room, before := t.TempDir(), runtime.NumGoroutine()
	for range [20]int{} {
		if _, _, status, err := searched(room); err != nil || status != exit.NotSettled {
			t.Fatal(status, err)
		}
	}
	if after := runtime.NumGoroutine(); after >= before+20 {
		t.Errorf("%d more run than before", after-before)
	}
}
