package commandline

import (
	"os"
	"path/filepath"
	"reflect"
	"strings"
	"testing"
)

// Passwords are read from a file that nobody else reads, each to its line's end; what is no such file is refused.
func TestPasswords(t *testing.T) {
	path := filepath.Join(t.TempDir(), "passwords")
	for _, row := range []struct {
		text string
		mode os.FileMode
		told string
		read map[string]string
	}{
		{"docs a b c\nphotos x\n", 0o600, "", map[string]string{"docs": "a b c", "photos": "x"}}, {"docs  x \r\n", 0o400, "", map[string]string{"docs": " x "}},
		{"docs x", 0o640, "others may read or write it", nil}, {"docs x", 0o602, "others may read or write it", nil}, {"docs\n", 0o600, "line 1 isn't", nil},
		{"docs x\n\n", 0o600, "line 2 isn't", nil}, {" x\n", 0o600, "line 1 isn't", nil}, {"docs \n", 0o600, "line 1 isn't", nil}, {"", 0o600, "line 1 isn't", nil},
		{"docs x\nphotos y\ndocs z\n", 0o600, "line 3 has the password of folder \"docs\" once more", nil},
	} {
		os.Remove(path)
		if err := os.WriteFile(path, []byte(row.text), 0o600); err != nil {
			t.Fatal(err)
		}
		if err := os.Chmod(path, row.mode); err != nil {
			t.Fatal(err)
		}
		read := &Options{}
		err := (passwordsOf{read}).Set(path)
		if (err == nil) != (row.told == "") || err != nil && !strings.Contains(err.Error(), row.told) || err == nil && !reflect.DeepEqual(read.Passwords, row.read) {
			t.Errorf("%q: %v, %v", row.text, read.Passwords, err)
		}
	}
	if err := (passwordsOf{&Options{}}).Set(filepath.Join(t.TempDir(), "none")); err == nil {
		t.Error("a file that isn't there")
	}
}
