package target

import (
	"errors"
	"io"
	"os"
	"path/filepath"
	"strings"
	"syscall"
	"testing"
)

// writeTo writes "new" to a path, as a part is written.
func writeTo(path string) error {
	to, err := Of(path)
	if err != nil {
		return err
	}
	return to.Write(func(to io.Writer) error {
		_, err := io.WriteString(to, "new")
		return err
	})
}

func TestAPartGoesIntoFiles(t *testing.T) {
	dir := t.TempDir()
	at := func(name string) string { return filepath.Join(dir, name) }
	os.WriteFile(at("old"), []byte("old"), 0o644)
	os.WriteFile(at("pointed"), []byte("old"), 0o644)
	os.Symlink("pointed", at("link"))
	for _, name := range []string{"fresh", "old", "link"} {
		err := writeTo(at(name))
		if text, _ := os.ReadFile(at(name)); err != nil || string(text) != "new" {
			t.Errorf("%s: %q, %v", name, text, err)
		}
	}
	if to, err := os.Readlink(at("link")); err != nil || to != "pointed" {
		t.Errorf("the symlink isn't there any more: %v", err)
	}
	if left, _ := filepath.Glob(at(".*")); len(left) > 0 {
		t.Errorf("left behind: %s", left)
	}
}

func TestWhatIsNoFileStays(t *testing.T) {
	dir := t.TempDir()
	at := func(name string) string { return filepath.Join(dir, name) }
	os.Symlink("nothing", at("dangling"))
	os.Symlink("/dev/full", at("full"))
	os.Mkdir(at("directory"), 0o755)
	for name, why := range map[string]string{"dangling": "is a symlink to nothing", "directory": "is a directory", "nowhere/part": "nowhere is no directory"} {
		if err := writeTo(at(name)); err == nil || !strings.Contains(err.Error(), why) {
			t.Errorf("%s: %v", name, err)
		}
	}
	if err := writeTo(at("full")); !errors.Is(err, syscall.ENOSPC) {
		t.Errorf("a full device: %v", err)
	}
	for _, name := range []string{"dangling", "full"} {
		if about, err := os.Lstat(at(name)); err != nil || about.Mode().Type() != os.ModeSymlink {
			t.Errorf("%s is no symlink any more: %v", name, err)
		}
	}
}

func TestAPartGoesIntoAPipe(t *testing.T) {
	path := filepath.Join(t.TempDir(), "pipe")
	if err := syscall.Mkfifo(path, 0o600); err != nil {
		t.Fatal(err)
	}
	read := make(chan string)
	go func() {
		text, _ := os.ReadFile(path)
		read <- string(text)
	}()
	if err := writeTo(path); err != nil {
		t.Fatal(err)
	}
	if text := <-read; text != "new" {
		t.Errorf("the pipe had %q", text)
	}
}

// What comes to the target's place while the part is made isn't replaced.
func TestWhatCameMeanwhileStays(t *testing.T) {
	path := filepath.Join(t.TempDir(), "part")
	to, err := Of(path)
	if err != nil {
		t.Fatal(err)
	}
	err = to.Write(func(io.Writer) error { return os.Symlink("elsewhere", path) })
	if _, gone := os.Readlink(path); err == nil || gone != nil {
		t.Errorf("%v, %v", err, gone)
	}
}
