package disk

import (
	"os"
	"path/filepath"
	"reflect"
	"testing"

	"github.com/syncthing/syncthing/lib/fs"
	"syncthing-audit/adapt"
	"syncthing-audit/part"
)

// Names are counted whose files have links outside the folder; those whose links are all in it aren't.
func TestLinksThatLeadOutOfAFolder(t *testing.T) {
	folder, outside := t.TempDir(), t.TempDir()
	write := func(name string) {
		if err := os.WriteFile(filepath.Join(folder, name), []byte("12345"), 0o600); err != nil {
			t.Fatal(err)
		}
	}
	link := func(from, to string) {
		if err := os.Link(filepath.Join(folder, from), to); err != nil {
			t.Fatal(err)
		}
	}
	counted := func() part.Count {
		walker := &Walker{Disk: adapt.Directory(fs.NewFilesystem(fs.FilesystemTypeBasic, folder)), Take: func(Found) error { return nil }}
		if err := walker.Walk(); err != nil {
			t.Fatal(err)
		}
		return walker.Linked()
	}
	write("alone")
	write("twice")
	link("twice", filepath.Join(folder, "within"))
	if made := counted(); made != (part.Count{}) {
		t.Errorf("%+v lead out of the folder, where none does", made)
	}
	write("shared")
	link("shared", filepath.Join(outside, "shared"))
	link("twice", filepath.Join(outside, "twice"))
	if made := counted(); made != (part.Count{Names: 3, Bytes: 15}) {
		t.Errorf("%+v lead out of the folder, and not 3 names", made)
	}
}

// All names of one file have one number, and those of another file another one. A file with one name has none.
func TestNamesOfOneFile(t *testing.T) {
	folder, outside := t.TempDir(), t.TempDir()
	for _, name := range []string{"a1", "b1", "c"} {
		if err := os.WriteFile(filepath.Join(folder, name), []byte(name), 0o600); err != nil {
			t.Fatal(err)
		}
	}
	for to, from := range map[string]string{filepath.Join(folder, "a2"): "a1", filepath.Join(folder, "b2"): "b1", filepath.Join(outside, "b3"): "b1"} {
		if err := os.Link(filepath.Join(folder, from), to); err != nil {
			t.Fatal(err)
		}
	}
	met := map[string]int64{}
	walker := &Walker{Disk: adapt.Directory(fs.NewFilesystem(fs.FilesystemTypeBasic, folder)), Take: func(found Found) error {
		met[found.Name] = found.Node.Link
		return nil
	}}
	if err := walker.Walk(); err != nil {
		t.Fatal(err)
	}
	if want := map[string]int64{"a1": 1, "a2": 1, "b1": 2, "b2": 2, "c": 0}; !reflect.DeepEqual(met, want) {
		t.Errorf("%v", met)
	}
}

// A directory has as many links as directories stand in it, and two more. No other name leads there.
func TestDirectoriesAreNotLinked(t *testing.T) {
	room, met := t.TempDir(), links{}
	if err := os.Mkdir(filepath.Join(room, "below"), 0o700); err != nil {
		t.Fatal(err)
	}
	about, err := os.Lstat(room)
	if err != nil {
		t.Fatal(err)
	}
	if met.add(about); met.elsewhere() != (part.Count{}) {
		t.Errorf("%+v", met.elsewhere())
	}
}
