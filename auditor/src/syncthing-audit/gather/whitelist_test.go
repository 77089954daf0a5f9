package gather

import (
	"os"
	"path/filepath"
	"strings"
	"testing"

	"github.com/syncthing/syncthing/lib/fs"
	"github.com/syncthing/syncthing/lib/ignore"
	"github.com/syncthing/syncthing/lib/protocol"
	"syncthing-audit/choice"
	"syncthing-audit/device"
	"syncthing-audit/disk"
	"syncthing-audit/part"
)

// A directory that .stignore ignores is the folder's where a pattern takes in what is below, and the index has a record of it.
func TestWhatIsIgnored(t *testing.T) {
	const whitelist = "!/keep/*.bin\n*\n"
	directory := &part.Record{Type: int(protocol.FileInfoTypeDirectory)}
	deleted := &part.Record{Type: int(protocol.FileInfoTypeDirectory), Deleted: true}
	for _, one := range []struct {
		patterns, name string
		own            *part.Record
		isIgnored      bool
	}{
		{whitelist, "keep", directory, false}, {whitelist, "keep", nil, true}, {whitelist, "keep", deleted, true},
		{whitelist, "keep", &part.Record{}, true}, {whitelist, "keep/1.bin", &part.Record{}, false}, {whitelist, "keep/notes", nil, true},
		{"keep\n", "keep", directory, true}, {"other\n", "keep", directory, false}, {"!/keep/*.bin\nother\n", "keep", nil, false},
	} {
		patterns := ignore.New(fs.NewFilesystem(fs.FilesystemTypeBasic, t.TempDir()))
		if err := patterns.Parse(strings.NewReader(one.patterns), ".stignore"); err != nil {
			t.Fatal(err)
		}
		if is := patterns.Match(one.name).IsIgnored() && !(&merge{patterns: patterns}).isTaken(one.own); is != one.isIgnored {
			t.Errorf("%q, %q, %+v: %v", one.patterns, one.name, one.own, is)
		}
	}
}

// whitelisted is a folder with a whitelist, whose index has the directory e.
type whitelisted struct{ directory }

func (w whitelisted) Patterns() (*ignore.Matcher, error) {
	patterns := ignore.New(w.Disk())
	return patterns, patterns.Parse(strings.NewReader("!/e/*.bin\n*"), ".stignore")
}

func (w whitelisted) Own(_ choice.Names, take func(device.Entry) bool) error {
	take(device.Entry{Name: "e", Record: &part.Record{Type: int(protocol.FileInfoTypeDirectory)}})
	return nil
}

// Such a directory is still between a glance and the hashing, and one that changed is in motion. One that the index hasn't may go.
func TestGlanceAtAWhitelist(t *testing.T) {
	t.Setenv("TMPDIR", t.TempDir())
	for mode, expected := range map[os.FileMode]string{0o755: "", 0o700: "e"} {
		room := aDirectory(t)
		if err := os.Mkdir(filepath.Join(room, "f"), 0o755); err != nil {
			t.Fatal(err)
		}
		pool := disk.NewPool(1)
		defer pool.Close()
		read := &Device{Folders: []Folder{whitelisted{directory{room}}}, Pool: pool, Look: &part.Look{ID: "id"}}
		glance, err := read.Glance()
		if err != nil {
			t.Fatal(err)
		}
		defer glance.Close()
		if err := os.Remove(filepath.Join(room, "f")); err != nil {
			t.Fatal(err)
		}
		if err := os.Chmod(filepath.Join(room, "e"), mode); err != nil {
			t.Fatal(err)
		}
		moved := ""
		err = read.Run(read.Head(), glance.Compare(func(line part.Line) error {
			if line.Name != nil && len(line.Name.Moved) > 0 {
				moved += string(line.Name.Name)
			}
			return nil
		}))
		if err != nil || moved != expected {
			t.Errorf("%o: %q moved, %v", mode, moved, err)
		}
	}
}
