package directory

import (
	"errors"
	"os"
	"path/filepath"
	"strings"
	"testing"
	"testing/fstest"
)

// A disk that tells upper from lower case isn't taken for one that doesn't, whatever the marker is called, and if its name stands there twice, too. A disk that
// doesn't tell them is tried on real devices (auditor/test/other_disks.py).
func TestADiskThatTellsCase(t *testing.T) {
	for marker, also := range map[string]string{".stfolder": "", ".stFolder": ".STFOLDER", ".MARK": ".mark", ".123": "", "a/b": "", "": ""} {
		dir := t.TempDir()
		for _, name := range []string{marker, also} {
			if err := os.MkdirAll(filepath.Join(dir, name), 0o755); err != nil {
				t.Fatal(err)
			}
		}
		if IgnoresCase(dir, marker) {
			t.Errorf("%q", marker)
		}
	}
	if IgnoresCase(filepath.Join(t.TempDir(), "none"), ".stfolder") {
		t.Error("a directory that isn't there")
	}
}

// A disk that doesn't tell them has the marker under other letters, too, and lists it once.
func TestADiskThatIgnoresCase(t *testing.T) {
	for _, row := range []struct {
		marker string
		stands string
		err    error
		due    bool
	}{
		{".stfolder", ".stfolder", nil, true},
		{".MARK", ".MARK", nil, true},
		{".stfolder", "other", nil, false},
		{".stfolder", ".STFOLDER", nil, false},
		{".123", ".123", nil, false},
		{"a/b", "a/b", nil, false},
		{".stfolder", ".stfolder", errors.New("it can't be listed"), false},
	} {
		isThere := func(name string) bool { return strings.EqualFold(name, row.stands) }
		list := func() ([]os.DirEntry, error) {
			listed, err := fstest.MapFS{row.stands: {}}.ReadDir(".")
			if err == nil {
				err = row.err
			}
			return listed, err
		}
		if ignoresCase(row.marker, isThere, list) != row.due {
			t.Errorf("%+v", row)
		}
	}
}
