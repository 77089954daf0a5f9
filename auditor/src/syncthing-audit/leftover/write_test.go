package leftover

import (
	"os"
	"path/filepath"
	"runtime/debug"
	"strings"
	"testing"

	"syncthing-audit/fixture"
)

// A file is written whole, in place of another one if that is asked for; where it can't be, what was there stays, and nothing else is left, or stays open.
func TestFilesThatAreWrittenWhole(t *testing.T) {
	defer debug.SetGCPercent(debug.SetGCPercent(-1)) // the collector closes files of which nobody knows any more
	room := t.TempDir()
	if err := os.Mkdir(filepath.Join(room, "full"), 0o700); err != nil {
		t.Fatal(err)
	}
	for _, row := range []struct {
		write    func(string, []byte) error
		name     string
		text     string
		is       bool
		standing string // what stands there then
	}{
		{WriteNew, "a", "new", true, "new"}, {WriteNew, "a", "other", false, "new"}, {Write, "a", "other", true, "other"}, {Write, "b", "", true, ""},
		{Write, "none/c", "text", false, ""}, {Write, "full", "text", false, ""}, {WriteNew, "full", "text", false, ""},
	} {
		isHere := func(path string) bool { return strings.HasPrefix(path, room) }
		path, before := filepath.Join(room, row.name), fixture.CountOpened(t, isHere)
		if err := row.write(path, []byte(row.text)); (err == nil) != row.is {
			t.Errorf("%s: %v", row.name, err)
		}
		if text, _ := os.ReadFile(path); string(text) != row.standing {
			t.Errorf("%s: %q", row.name, text)
		}
		if after := fixture.CountOpened(t, isHere); after != before {
			t.Errorf("%s: %d files are open, and %d before", row.name, after, before)
		}
	}
	if left, err := os.ReadDir(room); err != nil || len(left) != 3 {
		t.Errorf("%v, %v", left, err)
	}
}
