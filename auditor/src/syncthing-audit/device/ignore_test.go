package device

import (
	"os"
	"path/filepath"
	"strings"
	"testing"

	"github.com/syncthing/syncthing/lib/fs"
)

// Both forms of one name: in NFC, and in NFD, as a Mac's files have it.
const (
	composed   = "f\u00fcr"
	decomposed = "fu\u0308r"
)

// A pattern that versions of Syncthing take otherwise is refused, also in a file that is included.
func TestPatterns(t *testing.T) {
	cases := []struct {
		why, patterns, included, told string
	}{
		{"in NFC", composed + "\n#include more", composed + "2", ""},
		{"in NFD", "a\n" + decomposed, "", "/.stignore has a pattern that isn't in Unicode's form NFC"},
		{"in NFD, included", "a\n#include more", decomposed, "/more has a pattern that isn't in Unicode's form NFC"},
		{"what is included isn't there", "#include nowhere", "", "/.stignore can't be read"},
	}
	for _, one := range cases {
		directory := t.TempDir()
		os.WriteFile(filepath.Join(directory, nameOfPatterns), []byte(one.patterns), 0o600)
		os.WriteFile(filepath.Join(directory, "more"), []byte(one.included), 0o600)
		patterns, err := patternsIn(fs.NewFilesystem(fs.FilesystemTypeBasic, directory))
		if one.told != "" {
			if err == nil || !strings.HasPrefix(err.Error(), directory+one.told) {
				t.Errorf("%s: %v", one.why, err)
			}
			continue
		}
		if err != nil || !patterns.Match(composed).IsIgnored() || !patterns.Match(composed+"2").IsIgnored() || patterns.Match("a").IsIgnored() {
			t.Errorf("%s: %v", one.why, err)
		}
	}
}
