package target

import (
	"bytes"
	"errors"
	"io"
	"io/fs"
	"os"
	"path/filepath"
	"strings"
	"testing"

	"syncthing-audit/commandline"
	"syncthing-audit/fixture"
)

// A part goes where it is asked to go, with its signature if there is a key; and to no terminal, but for the line that --about tells.
func TestWhereAPartGoes(t *testing.T) {
	path, why := filepath.Join(t.TempDir(), "part"), errors.New("it can't be signed")
	signs := 0
	sign := func(_ commandline.Options, to *Target, _ io.Writer) error {
		if signs++; to.path != path {
			t.Errorf("%s is signed", to.path)
		}
		return why
	}
	text := func(to io.Writer) error { _, err := io.WriteString(to, "text"); return err }
	var output bytes.Buffer
	for _, row := range []struct {
		asked commandline.Options
		err   error
		signs int
	}{{commandline.Options{Output: path}, nil, 0}, {commandline.Options{Output: path, Key: "key"}, why, 1}, {commandline.Options{Output: path + "/none/part", Key: "key"}, fs.ErrInvalid, 0}, {commandline.Options{Key: "key"}, nil, 0}} {
		signs = 0
		write, err := Writer(row.asked, &output, io.Discard, sign)
		if (err == nil) != (row.err == nil) || row.err == why && err != why || signs != row.signs || (write == nil) != (err != nil) {
			t.Fatalf("%+v: signed %d times, %v", row.asked, signs, err)
		}
		if err == nil {
			err = write(text)
		}
		if err != nil && row.err == nil {
			t.Errorf("%+v: %v", row.asked, err)
		}
	}
	if written, err := os.ReadFile(path); err != nil || string(written) != "text" || output.String() != "text" {
		t.Errorf("%q, %v; %q", written, err, output.String())
	}
	terminal, _ := fixture.Terminal(t)
	for about, is := range map[bool]bool{true: true, false: false} {
		if write, err := Writer(commandline.Options{About: about}, terminal, io.Discard, sign); (err == nil) != is || (write != nil) != is {
			t.Errorf("on a terminal, about %v: %v", about, err)
		}
	}
}

// What another user links is followed by root nowhere on a path, and what root links is.
func TestLinksOfOthers(t *testing.T) {
	if os.Geteuid() != 0 {
		t.Skip("only root makes links of others")
	}
	room := t.TempDir()
	at := func(name string) string { return filepath.Join(room, name) }
	for name, target := range map[string]string{"own": "directory", "others": "directory", "directory/own": "file", "directory/others": "file"} {
		if err := os.MkdirAll(at("directory"), 0o700); err != nil {
			t.Fatal(err)
		}
		if err := os.Symlink(target, at(name)); err != nil {
			t.Fatal(err)
		}
	}
	if err := os.WriteFile(at("directory/file"), []byte("old"), 0o600); err != nil {
		t.Fatal(err)
	}
	for _, name := range []string{"others", "directory/others", "directory"} {
		if err := os.Lchown(at(name), 1234, 0); err != nil {
			t.Fatal(err)
		}
	}
	had, err := os.Getwd()
	if err == nil {
		err = os.Chdir(room)
	}
	if err != nil {
		t.Fatal(err)
	}
	defer os.Chdir(had)
	for name, link := range map[string]string{"own/file": "", "own/own": "", "directory/own": "", "directory/file": "", "own/new": "", "others/file": "others", "others/new": "others",
		"directory/others": "directory/others", "own/others": "own/others", "none/others": ""} {
		for _, path := range []string{name, at(name)} {
			_, err := Of(path)
			due := strings.TrimSuffix(path, name) + link
			if is := err != nil && err.Error() == "refused: "+due+" is a symlink of another user, which root doesn't follow: name the file itself"; is != (link != "") {
				t.Errorf("%s: %v", path, err)
			}
		}
	}
}

// An error names the file that was asked for, and what was begun isn't left, or open.
func TestWhatIsNotWritten(t *testing.T) {
	file := filepath.Join(t.TempDir(), "file")
	if err := os.WriteFile(file, []byte("old"), 0o600); err != nil {
		t.Fatal(err)
	}
	if _, err := Of(filepath.Join(file, "below", "part")); err == nil || strings.HasPrefix(err.Error(), "refused") {
		t.Errorf("below a file: %v", err)
	}
	if _, err := Of("/proc/self/mem/x"); err == nil {
		t.Error("below what is no directory")
	}
	to, err := Of(file)
	if err != nil {
		t.Fatal(err)
	}
	why := errors.New("it can't be made")
	isHere := func(path string) bool { return strings.HasPrefix(path, filepath.Dir(file)) }
	before := fixture.CountOpened(t, isHere)
	if err := to.Write(func(io.Writer) error { return why }); err != why {
		t.Error(err)
	}
	if after := fixture.CountOpened(t, isHere); after != before {
		t.Errorf("%d files are open, and %d before", after, before)
	}
	if text, err := os.ReadFile(file); err != nil || string(text) != "old" {
		t.Errorf("%q, %v", text, err)
	}
	if err := os.RemoveAll(filepath.Dir(file)); err != nil {
		t.Fatal(err)
	}
	if err := to.Write(func(io.Writer) error { return nil }); !errors.Is(err, fs.ErrNotExist) || !strings.Contains(err.Error(), file) {
		t.Errorf("without its directory: %v", err)
	}
	gone := &Target{path: file, isDirect: true}
	if err := gone.Write(func(io.Writer) error { return nil }); !errors.Is(err, fs.ErrNotExist) {
		t.Errorf("a pipe that is gone: %v", err)
	}
}
