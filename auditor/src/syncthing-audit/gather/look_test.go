package gather

import (
	"os"
	"path/filepath"
	"strings"
	"testing"

	"github.com/syncthing/syncthing/lib/fs"
	"github.com/syncthing/syncthing/lib/ignore"
	"syncthing-audit/choice"
	"syncthing-audit/device"
	"syncthing-audit/disk"
	"syncthing-audit/part"
)

// directory is a folder without an index.
type directory struct{ path string }

func (d directory) Folder() part.Folder { return part.Folder{ID: "docs", Kind: "send-receive"} }
func (d directory) Disk() fs.Filesystem { return fs.NewFilesystem(fs.FilesystemTypeBasic, d.path) }
func (d directory) Patterns() (*ignore.Matcher, error) {
	patterns := ignore.New(d.Disk())
	return patterns, patterns.Parse(strings.NewReader("*.log"), ".stignore")
}
func (d directory) Own(choice.Names, func(device.Entry) bool) error             { return nil }
func (d directory) View(part.View, choice.Names, func(device.Entry) bool) error { return nil }
func (d directory) Max() int64                                                  { return 0 }
func (d directory) Check() error                                                { return nil }

// aDirectory makes a directory with some names.
func aDirectory(t *testing.T) string {
	room := t.TempDir()
	for _, name := range []string{"b", "d", "a.log"} {
		if err := os.WriteFile(filepath.Join(room, name), []byte(name), 0o600); err != nil {
			t.Fatal(err)
		}
	}
	if err := os.Mkdir(filepath.Join(room, "e"), 0o755); err != nil {
		t.Fatal(err)
	}
	return room
}

// readable gives a name, or in brackets the one for which a hash stands.
func readable(name part.Bytes) string {
	for _, one := range []string{"a.log", "c.log", "e.log", "e/f.log"} {
		if part.HiddenName("docs", one).Bytes() == name {
			return "[" + one + "]"
		}
	}
	return string(name)
}

// movedSinceGlance gives the names that a directory has after a change behind the glance, those that moved in brackets.
func movedSinceGlance(t *testing.T, change func(path func(string) string) error) string {
	t.Setenv("TMPDIR", t.TempDir())
	room := aDirectory(t)
	pool := disk.NewPool(1)
	defer pool.Close()
	read := &Device{Folders: []Folder{directory{room}}, Pool: pool, Look: &part.Look{ID: "id"}}
	glance, err := read.Glance()
	if err != nil {
		t.Fatal(err)
	}
	defer glance.Close()
	if err := change(func(name string) string { return filepath.Join(room, name) }); err != nil {
		t.Fatal(err)
	}
	var told []string
	count := int64(0)
	err = read.Run(read.Head(), glance.Compare(func(line part.Line) error {
		if line.Name != nil && len(line.Name.Moved) > 0 {
			told = append(told, "("+string(line.Name.Name)+")")
		} else if line.Name != nil {
			told = append(told, readable(line.Name.Name))
		}
		if line.End != nil {
			count = line.End.Names
		}
		return nil
	}))
	if err != nil || count != int64(len(told)) {
		t.Errorf("%d names of %v: %v", count, told, err)
	}
	return strings.Join(told, " ")
}

// changesSinceAGlance are what may change of a name once a device was glanced at, and what is told of that.
var changesSinceAGlance = []struct {
	why    string
	change func(path func(string) string) error
	told   string
}{
	{"nothing", func(func(string) string) error { return nil }, "b d e [a.log]"},
	{"a new file", func(path func(string) string) error { return os.WriteFile(path("a"), nil, 0o600) }, "(a) b d e [a.log]"},
	{"the first one is gone", func(path func(string) string) error { return os.Remove(path("b")) }, "(b) d e [a.log]"},
	{"the last one is gone", func(path func(string) string) error { return os.Remove(path("d")) }, "b (d) e [a.log]"},
	{"longer", func(path func(string) string) error { return os.WriteFile(path("b"), []byte("longer"), 0o600) }, "(b) d e [a.log]"},
	{"with its time put back", func(path func(string) string) error {
		about, err := os.Stat(path("b"))
		if err == nil {
			err = os.WriteFile(path("b"), []byte("x"), 0o600)
		}
		if err == nil {
			err = os.Chtimes(path("b"), about.ModTime(), about.ModTime())
		}
		return err
	}, "(b) d e [a.log]"},
	{"another file of the same bytes and time", func(path func(string) string) error {
		about, err := os.Stat(path("b"))
		if err == nil {
			err = os.WriteFile(path(".syncthing.b.tmp"), []byte("b"), 0o600)
		}
		if err == nil {
			err = os.Chtimes(path(".syncthing.b.tmp"), about.ModTime(), about.ModTime())
		}
		if err == nil {
			err = os.Rename(path(".syncthing.b.tmp"), path("b"))
		}
		return err
	}, "(b) d e [a.log]"},
	{"other permissions", func(path func(string) string) error { return os.Chmod(path("d"), 0o640) }, "b (d) e [a.log]"},
	{"a directory in its place", func(path func(string) string) error {
		if err := os.Remove(path("d")); err != nil {
			return err
		}
		return os.Mkdir(path("d"), 0o755)
	}, "b (d) e [a.log]"},
	{"what is ignored changes", func(path func(string) string) error { return os.WriteFile(path("a.log"), []byte("more"), 0o600) }, "b d e [a.log]"},
	{"what is ignored goes and comes", func(path func(string) string) error {
		if err := os.Remove(path("a.log")); err != nil {
			return err
		}
		return os.WriteFile(path("c.log"), nil, 0o600)
	}, "b d e [c.log]"},
	{"another directory of the same name", func(path func(string) string) error {
		if err := os.Rename(path("e"), path("e.log")); err != nil {
			return err
		}
		return os.Mkdir(path("e"), 0o755)
	}, "b d (e) [a.log] [e.log]"},
	{"what stands in a directory", func(path func(string) string) error { return os.WriteFile(path("e/f.log"), nil, 0o600) },
		"b d e [e/f.log] [a.log]"},
	{"an odd name", func(path func(string) string) error { return os.WriteFile(path("a\xff\n\""), nil, 0o600) }, "a\xff\n\" b d e [a.log]"},
}

// What changes between the glance and the hashing moved; what .stignore keeps out may change.
func TestGlance(t *testing.T) {
	for _, one := range changesSinceAGlance {
		if told := movedSinceGlance(t, one.change); told != one.told {
			t.Errorf("%s: %q, not %q", one.why, told, one.told)
		}
	}
}
