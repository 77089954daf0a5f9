package device

import (
	"os"
	"path/filepath"
	"strings"
	"testing"

	"github.com/syncthing/syncthing/lib/db"
	"github.com/syncthing/syncthing/lib/db/backend"
	"github.com/syncthing/syncthing/lib/events"
	"github.com/syncthing/syncthing/lib/protocol"
	"google.golang.org/protobuf/encoding/protowire"
)

// indexWith makes an index, has it changed, and gives its directory.
func indexWith(t *testing.T, change func(*db.Lowlevel)) string {
	directory := t.TempDir()
	made, err := backend.OpenLevelDB(directory, backend.TuningAuto)
	if err != nil {
		t.Fatal(err)
	}
	defer made.Close()
	index, err := db.NewLowlevel(made, events.NoopLogger)
	if err == nil {
		err = db.UpdateSchema(index)
	}
	if err != nil {
		t.Fatal(err)
	}
	change(index)
	return directory
}

// opened opens an index, as the copy of a home's.
func opened(t *testing.T, directory string) (*Home, error) {
	home := &Home{Dir: "laptop-home", copied: directory}
	t.Cleanup(func() { home.backend.Close() })
	return home, home.openCopy()
}

// An index of another schema is refused, with the home and with what to do.
func TestAnotherSchema(t *testing.T) {
	cases := []struct {
		schema int64
		told   string
	}{
		{0, "doesn't say of which schema it is: start Syncthing on it once"},
		{13, "schema 13, "}, // the packages of 1.29 say that it is too old
		{15, "has schema 15, which Syncthing's packages don't read as this program has them: Syncthing v1.99.0 required"},
	}
	for _, one := range cases {
		_, err := opened(t, indexWith(t, func(index *db.Lowlevel) {
			about := db.NewMiscDataNamespace(index)
			about.PutInt64(keyOfSchema, one.schema)
			about.PutString(keyOfLeast, "v1.99.0")
		}))
		if err == nil || !strings.HasPrefix(err.Error(), "refused: laptop-home: its index ") || !strings.Contains(err.Error(), one.told) {
			t.Errorf("schema %d: %v", one.schema, err)
		}
	}
}

// Syncthing's packages mend an index of an older Syncthing with the same schema. Those of 1.29 then take the ids away that
// the index of 1.19 has of other devices' indexes, without which parts of two moments couldn't be told apart. It is read as
// the device has it.
func TestAnIndexOfAnOlderSyncthingKeepsItsIDs(t *testing.T) {
	const folder = "docs"
	other := protocol.NewDeviceID([]byte("other"))
	var own protocol.IndexID
	home, err := opened(t, indexWith(t, func(index *db.Lowlevel) {
		set, err := db.NewFileSet(folder, index)
		if err != nil {
			t.Fatal(err)
		}
		own = set.IndexID(protocol.LocalDeviceID)
		set.SetIndexID(other, 7)
		db.NewMiscDataNamespace(index).PutInt64(keyOfMended, 14)
	}))
	if err != nil {
		t.Fatal(err)
	}
	set, err := db.NewFileSet(folder, home.index)
	if err != nil {
		t.Fatal(err)
	}
	if set.IndexID(protocol.LocalDeviceID) != own || set.IndexID(other) != 7 {
		t.Error("the ids aren't those of the index")
	}
}

// Once a month Syncthing's packages count an index anew as they open it. Where its last change was forgotten, they give it another id then.
// A copy is read as the device has it.
func TestAnIndexThatWasNotCountedForLongKeepsItsID(t *testing.T) {
	const folder = "docs"
	var own protocol.IndexID
	home, err := opened(t, indexWith(t, func(index *db.Lowlevel) {
		set, err := db.NewFileSet(folder, index)
		if err != nil {
			t.Fatal(err)
		}
		for _, name := range []string{"a", "b"} {
			set.Update(protocol.LocalDeviceID, []protocol.FileInfo{{Name: name, Type: protocol.FileInfoTypeDirectory, Version: protocol.Vector{}.Update(1)}})
		}
		set.RemoveLocalItems([]string{"b"})
		own = set.IndexID(protocol.LocalDeviceID)
		countedLongAgo(t, index)
	}))
	if err != nil {
		t.Fatal(err)
	}
	set, err := db.NewFileSet(folder, home.index)
	if err != nil {
		t.Fatal(err)
	}
	if set.IndexID(protocol.LocalDeviceID) != own || set.Sequence(protocol.LocalDeviceID) != 2 {
		t.Errorf("id %v, not %v; sequence %d", set.IndexID(protocol.LocalDeviceID), own, set.Sequence(protocol.LocalDeviceID))
	}
}

// countedLongAgo has the counts of an index say that they were made in 1970. Of two values of a field the last one counts.
func countedLongAgo(t *testing.T, index *db.Lowlevel) {
	const created protowire.Number = 2
	counts, err := index.NewPrefixIterator([]byte{db.KeyTypeFolderMeta})
	if err != nil {
		t.Fatal(err)
	}
	defer counts.Release()
	for counts.Next() {
		text := protowire.AppendVarint(protowire.AppendTag(append([]byte{}, counts.Value()...), created, protowire.VarintType), 1)
		if err := index.Put(append([]byte{}, counts.Key()...), text); err != nil {
			t.Fatal(err)
		}
	}
}

// A home of Syncthing 2 is refused as such, before its newer config.xml is.
func TestAHomeOfSyncthing2(t *testing.T) {
	home := t.TempDir()
	write := func(name, text string) {
		if err := os.WriteFile(filepath.Join(home, name), []byte(text), 0o600); err != nil {
			t.Fatal(err)
		}
	}
	write("cert.pem", "-----BEGIN CERTIFICATE-----\nAAAA\n-----END CERTIFICATE-----\n")
	write("config.xml", `<configuration version="51"></configuration>`)
	steps := []struct{ directory, told string }{
		{".", "config.xml: version 51 is of a newer Syncthing than those that are read (up to 37)"},
		{indexOfTwo, "its index is that of Syncthing 2 (index-v2), which isn't read"},
		{databaseName, "it has an index of Syncthing 1 and one of Syncthing 2, which isn't read: if Syncthing 1 runs on it, move index-v2 away"},
	}
	for _, one := range steps {
		if err := os.MkdirAll(filepath.Join(home, one.directory), 0o700); err != nil {
			t.Fatal(err)
		}
		for _, open := range []func(dir, data string, maps ...Map) (*Home, error){Open, OpenLive} {
			if _, err := open(home, ""); err == nil || !strings.HasPrefix(err.Error(), "refused: "+home) || !strings.HasSuffix(err.Error(), one.told) {
				t.Errorf("%s: %v", one.directory, err)
			}
		}
	}
	if !IsHome(home) {
		t.Error("it is taken for no home")
	}
}

// A home whose index isn't there is refused with the flag that says where it is. So is an index of Syncthing 2 at that place.
func TestAnIndexElsewhere(t *testing.T) {
	home, data := t.TempDir(), t.TempDir()
	for name, text := range map[string]string{
		"cert.pem":   "-----BEGIN CERTIFICATE-----\nAAAA\n-----END CERTIFICATE-----\n",
		"config.xml": `<configuration version="36"></configuration>`,
	} {
		if err := os.WriteFile(filepath.Join(home, name), []byte(text), 0o600); err != nil {
			t.Fatal(err)
		}
	}
	for _, open := range []func(dir, data string, maps ...Map) (*Home, error){Open, OpenLive} {
		for given, named := range map[string]string{"": home, data: data} {
			_, err := open(home, given)
			if err == nil || !strings.HasPrefix(err.Error(), named+": no index "+databaseName) || !strings.Contains(err.Error(), "name that behind the home as --data DIR") {
				t.Errorf("%q: %v", given, err)
			}
		}
	}
	if err := os.Mkdir(filepath.Join(data, indexOfTwo), 0o700); err != nil {
		t.Fatal(err)
	}
	if _, err := Open(home, data); err == nil || !strings.HasPrefix(err.Error(), "refused: "+data+": its index is that of Syncthing 2") {
		t.Error(err)
	}
}

// A home that can't be looked at, for want of permission say, isn't said not to be there. Here it is a symlink to itself.
func TestAHomeThatCannotBeLookedAt(t *testing.T) {
	room := t.TempDir()
	loop, file := filepath.Join(room, "loop"), filepath.Join(room, "file")
	if err := os.Symlink(loop, loop); err != nil {
		t.Fatal(err)
	}
	if err := os.WriteFile(file, nil, 0o600); err != nil {
		t.Fatal(err)
	}
	for path, is := range map[string]bool{loop: true, file: false, filepath.Join(room, "none"): false, room: false} {
		if IsHome(path) != is {
			t.Errorf("%s: %v", path, !is)
		}
	}
}
