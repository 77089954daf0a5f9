package device

import (
	"os"
	"path/filepath"
	"reflect"
	"strings"
	"testing"

	"github.com/syncthing/syncthing/lib/config"
	"github.com/syncthing/syncthing/lib/db"
	"github.com/syncthing/syncthing/lib/protocol"
	"syncthing-audit/choice"
	"syncthing-audit/leftover"
	"syncthing-audit/part"
)

// put writes a file of a home.
func put(t *testing.T, path, text string) {
	if err := os.WriteFile(path, []byte(text), 0o600); err != nil {
		t.Fatal(err)
	}
}

// replaced writes a file of a home with one text of it replaced.
func replaced(t *testing.T, path, old, by string) {
	text, err := os.ReadFile(path)
	if err != nil || !strings.Contains(string(text), old) {
		t.Fatalf("%s has no %s: %v", path, old, err)
	}
	put(t, path, strings.ReplaceAll(string(text), old, by))
}

// said changes what an index says of itself.
func said(t *testing.T, dir string, change func(about *db.NamespacedKV) error) {
	opened := openDatabase(t, filepath.Join(dir, databaseName))
	if err := change(db.NewMiscDataNamespace(opened)); err != nil {
		t.Fatal(err)
	}
	opened.Close()
}

// faultsOfHomes are what may be wrong with a home, and what is told of it.
var faultsOfHomes = []struct {
	why    string
	change func(t *testing.T, dir string)
	told   string
}{
	{"no certificate", func(t *testing.T, dir string) { os.Remove(filepath.Join(dir, "cert.pem")) }, "cert.pem"},
	{"a certificate that is none", func(t *testing.T, dir string) { put(t, filepath.Join(dir, "cert.pem"), "x") }, "cert.pem"},
	{"no configuration", func(t *testing.T, dir string) { os.Remove(filepath.Join(dir, "config.xml")) }, "config.xml"},
	{"a configuration that is none", func(t *testing.T, dir string) { put(t, filepath.Join(dir, "config.xml"), "<x") }, "config.xml"},
	{"a configuration of which the packages read nothing", func(t *testing.T, dir string) {
		put(t, filepath.Join(dir, "config.xml"), `<configuration version="37"><folder id="docs" rescanIntervalS="x"/></configuration>`)
	}, "config.xml"},
	{"a switch that isn't one", func(t *testing.T, dir string) {
		replaced(t, filepath.Join(dir, "config.xml"), "<syncXattrs>true", "<syncXattrs>x")
	}, "config.xml: "},
	{"the configuration of a newer Syncthing", func(t *testing.T, dir string) {
		replaced(t, filepath.Join(dir, "config.xml"), `version="37"`, `version="1000"`)
	}, "version 1000 is of a newer Syncthing"},
	{"a configuration that is too old", func(t *testing.T, dir string) {
		replaced(t, filepath.Join(dir, "config.xml"), `version="37"`, `version="1"`)
	}, "version 1 is too old"},
	{"no index", func(t *testing.T, dir string) { os.RemoveAll(filepath.Join(dir, databaseName)) }, "no index " + databaseName},
	{"an index that names no manifest", func(t *testing.T, dir string) { put(t, filepath.Join(dir, databaseName, "CURRENT"), "x\n") }, "CURRENT names no manifest"},
	{"an index without its log", func(t *testing.T, dir string) { os.Remove(theOne(t, filepath.Join(dir, databaseName), "*.log")) }, "the log 0"},
	{"an index whose log ends in the middle", func(t *testing.T, dir string) { cut(t, theOne(t, filepath.Join(dir, databaseName), "*.log"), 3) }, "isn't whole"},
	{"an index without a schema", func(t *testing.T, dir string) {
		said(t, dir, func(about *db.NamespacedKV) error { return about.Delete(keyOfSchema) })
	}, "doesn't say of which schema it is"},
	{"an index of schema 0", func(t *testing.T, dir string) {
		said(t, dir, func(about *db.NamespacedKV) error { return about.PutInt64(keyOfSchema, 0) })
	}, "doesn't say of which schema it is"},
	{"an index of an old schema", func(t *testing.T, dir string) {
		said(t, dir, func(about *db.NamespacedKV) error { return about.PutInt64(keyOfSchema, 1) })
	}, "schema 1, "},
	{"an index of a new schema", func(t *testing.T, dir string) {
		said(t, dir, func(about *db.NamespacedKV) error { return about.PutInt64(keyOfSchema, 1000) })
	}, "schema 1000"},
	{"no place for the copy", func(t *testing.T, dir string) { t.Setenv("TMPDIR", filepath.Join(dir, "nowhere")) }, "TMPDIR may name another directory"},
}

// Each fault of a home is told, of a stopped Syncthing's and of one that may run. No home is opened then, and no copy is left.
func TestFaultsOfHomes(t *testing.T) {
	for _, one := range faultsOfHomes {
		for isLive, open := range map[bool]func(dir, data string, maps ...Map) (*Home, error){false: Open, true: OpenLive} {
			if isLive && strings.Contains(one.why, "log") {
				continue // it waits for the log
			}
			dir, _ := aHome(t)
			room := t.TempDir()
			t.Setenv("TMPDIR", room)
			one.change(t, dir)
			home, err := open(dir, "")
			if home != nil || err == nil || !strings.Contains(err.Error(), one.told) || strings.Contains(err.Error(), "%!") { // as where words stand in others' places
				t.Errorf("%s, live %v: %v", one.why, isLive, err)
			}
			if left, err := os.ReadDir(room); err != nil || len(left) > 0 {
				t.Errorf("%s, live %v: %v is left: %v", one.why, isLive, left, err)
			}
		}
	}
}

// What a home is said to be configured as is read without its index; of a home that can't be read nothing is told but its certificate's device.
func TestWhoseHomeItIs(t *testing.T) {
	dir, _ := aHome(t)
	os.RemoveAll(filepath.Join(dir, databaseName))
	id, read, err := About(dir)
	if err != nil || IDOf(dir) != id.String() || id == (protocol.DeviceID{}) || len(read.Folders) != 1 || read.Folders[0].ID != "docs" {
		t.Errorf("%v: %v, %+v", id, err, read)
	}
	put(t, filepath.Join(dir, "config.xml"), "x")
	none, nothing, err := About(dir)
	if err == nil || none != (protocol.DeviceID{}) || !reflect.DeepEqual(nothing, config.Configuration{}) || IDOf(dir) != id.String() {
		t.Errorf("%v, %+v: %v", none, nothing, err)
	}
	os.Remove(filepath.Join(dir, "cert.pem"))
	if is := IDOf(dir); is != "" {
		t.Error(is)
	}
}

// Patterns of a folder that can't be read are an error with the folder's id, and those that can are those of its directory.
func TestPatternsOfAFolder(t *testing.T) {
	dir, docs := aHome(t)
	index := firstIndex(t, dir)
	if patterns, err := index.Patterns(); err != nil || patterns.Match("a.log").IsIgnored() {
		t.Errorf("without a file of patterns: %v", err)
	}
	put(t, filepath.Join(docs, ".stignore"), "*.log\n")
	if patterns, err := index.Patterns(); err != nil || !patterns.Match("a.log").IsIgnored() || patterns.Match("a").IsIgnored() {
		t.Errorf("%v", err)
	}
	put(t, filepath.Join(docs, ".stignore"), "#include none\n")
	if patterns, err := index.Patterns(); err == nil || patterns != nil || !strings.HasPrefix(err.Error(), "folder docs: ") {
		t.Errorf("%v, %v", patterns, err)
	}
	if disk, err := index.Disk().Lstat(".stfolder"); err != nil || !disk.IsDir() {
		t.Errorf("%v, %v", disk, err)
	}
	gone := index.home.Config.Folders[0]
	gone.Path = filepath.Join(docs, "none")
	if index, err := index.home.Index(gone); err == nil || index != nil {
		t.Error("a folder without a directory has an index")
	}
}

// One home's index is one on one machine, and that of another home is another one.
func TestTheIdentityOfAnIndex(t *testing.T) {
	var all []string
	dir, _ := aHome(t)
	other, _ := aHome(t)
	for _, of := range []*Home{{Dir: dir}, {Dir: "elsewhere", data: dir}, {Dir: other}} {
		identity, err := of.Identity()
		if err != nil || identity == "" {
			t.Fatal(err)
		}
		all = append(all, identity)
	}
	if all[0] != all[1] || all[0] == all[2] {
		t.Error(all)
	}
	if identity, err := (&Home{Dir: t.TempDir()}).Identity(); err == nil {
		t.Error(identity)
	}
}

// A copy that fails for another reason than want of room isn't told as one that has none.
func TestACopyThatFailsOtherwise(t *testing.T) {
	dir, _ := aHome(t)
	made, err := leftover.Directory()
	if err != nil {
		t.Fatal(err)
	}
	defer leftover.Remove(made)
	room, length := t.TempDir(), 4095-len("/")-len(filepath.Base(made))-len("/CURRENT") // other files' names are too long
	for len(room) < length-400 {
		room = filepath.Join(room, strings.Repeat("x", 199))
	}
	room = filepath.Join(room, strings.Repeat("x", 199))
	room = filepath.Join(room, strings.Repeat("x", length-len(room)-1))
	if err := os.MkdirAll(room, 0o700); err != nil {
		t.Skip(err)
	}
	t.Setenv("TMPDIR", room)
	for _, open := range []func(dir, data string, maps ...Map) (*Home, error){Open, OpenLive} {
		if home, err := open(dir, ""); home != nil || err == nil || strings.Contains(err.Error(), "TMPDIR may name another") {
			t.Error(err)
		}
		if left, err := os.ReadDir(room); err != nil || len(left) > 0 {
			t.Errorf("%v is left: %v", left, err)
		}
	}
}

// Of an index that isn't there nobody knows how much room it takes.
func TestRoomForNoIndex(t *testing.T) {
	t.Setenv("TMPDIR", t.TempDir())
	if made, err := roomFor(filepath.Join(t.TempDir(), "none")); err == nil || made != "" {
		t.Errorf("%q, %v", made, err)
	}
}

// What Syncthing's packages panic with is an error of the folder, and so is what they pass over, as where the index lacks a list of blocks. Whoever wants no
// more names is told nothing of those.
func TestAnIndexWithoutAListOfBlocks(t *testing.T) {
	err := func() (err error) {
		defer recovered("docs", &err)
		panic("odd")
	}()
	if err == nil || err.Error() != "folder docs: its index can't be read: odd" {
		t.Error(err)
	}
	dir, _ := aHome(t)
	opened := openDatabase(t, filepath.Join(dir, databaseName))
	lists, err := opened.NewPrefixIterator([]byte{db.KeyTypeBlockList})
	if err != nil {
		t.Fatal(err)
	}
	count := 0
	for lists.Next() {
		if err := opened.Delete(lists.Key()); err != nil {
			t.Fatal(err)
		}
		count++
	}
	lists.Release()
	opened.Close()
	if count == 0 {
		t.Fatal("it has no lists of blocks")
	}
	index := firstIndex(t, dir)
	for what, read := range map[string]func(take func(Entry) bool) error{
		"own": func(take func(Entry) bool) error { return index.Own(choice.Names{}, take) },
		"view": func(take func(Entry) bool) error {
			return index.View(part.View{Device: otherDevice.String()}, choice.Names{}, take)
		},
	} {
		err := read(func(Entry) bool { return true })
		if err == nil || !strings.HasPrefix(err.Error(), "folder docs: its index can't be read: it has ") {
			t.Errorf("%s: %v", what, err)
		}
	}
	for _, names := range []choice.Names{{Prefix: nameOfSequence(1)}, {Prefix: nameOfSequence(2)}} {
		if err := index.Own(names, func(Entry) bool { return true }); err == nil || !strings.Contains(err.Error(), "it has 1 entries") {
			t.Errorf("%+v: %v", names, err)
		}
	}
	if err := index.Own(choice.Names{Prefix: "none"}, func(Entry) bool { return true }); err != nil {
		t.Error(err)
	}
}
