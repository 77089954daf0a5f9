package regular

import (
	"os"
	"path/filepath"
	"strings"
	"syscall"
	"testing"
)

// A file is read up to a length. What is none is an error at once, also behind a symlink.
func TestRead(t *testing.T) {
	room := t.TempDir()
	at := func(name string) string { return filepath.Join(room, name) }
	os.WriteFile(at("file"), []byte("text"), 0o600)
	os.Mkdir(at("directory"), 0o700)
	syscall.Mkfifo(at("pipe"), 0o600)
	os.Symlink("file", at("link"))
	os.Symlink("pipe", at("link to a pipe"))
	os.Symlink("/dev/zero", at("endless"))
	for name, told := range map[string]string{"file": "", "link": "", "directory": "is a directory", "pipe": "it is no file", "link to a pipe": "it is no file",
		"endless": "it is no file", "none": "no such file"} {
		data, about, err := Read(at(name), 4)
		if told == "" && (err != nil || string(data) != "text" || about.Size() != 4) || told != "" && (err == nil || !strings.Contains(err.Error(), told)) {
			t.Errorf("%s: %q, %v", name, data, err)
		}
	}
	if _, _, err := Read(at("file"), 3); err == nil || !strings.Contains(err.Error(), "it has over 3 bytes") {
		t.Error(err)
	}
}
