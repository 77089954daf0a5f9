package device

import (
	"errors"
	"fmt"
	"math"
	"os"
	"path/filepath"
	"reflect"
	"strings"
	"testing"

	"github.com/syncthing/syncthing/lib/config"
	"github.com/syncthing/syncthing/lib/db"
	"github.com/syncthing/syncthing/lib/protocol"
	"syncthing-audit/choice"
	"syncthing-audit/part"
)

// firstIndex opens a home and the index of its first folder, until the test ends.
func firstIndex(t *testing.T, dir string) *Index {
	t.Helper()
	home, err := Open(dir, "")
	if err != nil {
		t.Fatal(err)
	}
	t.Cleanup(home.Close)
	index, err := home.Index(home.Config.Folders[0])
	if err != nil {
		t.Fatal(err)
	}
	t.Cleanup(index.Close)
	return index
}

// aHome makes a home with an index, whose folder docs has some entries, and gives it with the directory of that folder.
func aHome(t *testing.T) (dir, docs string) {
	room := t.TempDir()
	t.Setenv("HOME", filepath.Join(room, "nobody")) // no index of this user's is looked at
	dir, docs = filepath.Join(room, "home"), filepath.Join(room, "docs")
	id, err := readDeviceID(filepath.Join(certificateOf(t, dir, "AAAA"), "cert.pem"))
	if err != nil {
		t.Fatal(err)
	}
	other, third := otherDevice.String(), protocol.DeviceID{3}.String()
	text := fmt.Sprintf(`<configuration version="37">
<folder id="docs" label="Documents" path="%s" type="receiveonly" ignorePerms="true"><device id="%s"/><device id="%s"><encryptionPassword>x</encryptionPassword></device><device id="%s"/>
<modTimeWindowS>2</modTimeWindowS><maxConflicts>3</maxConflicts><ignoreDelete>true</ignoreDelete><syncXattrs>true</syncXattrs></folder>
<device id="%s" name="laptop"><paused>true</paused></device><device id="%s" name="server"><paused>true</paused></device><device id="%s" name="nas"></device>
<device id="%s" name="tv"><paused>true</paused></device></configuration>`, docs, id, other, third, id, other, third, protocol.DeviceID{4})
	err = os.MkdirAll(filepath.Join(docs, ".stfolder"), 0o700)
	if err == nil {
		err = os.WriteFile(filepath.Join(dir, "config.xml"), []byte(text), 0o600)
	}
	if err != nil {
		t.Fatal(err)
	}
	set, opened, err := openSet(filepath.Join(dir, databaseName))
	if err != nil {
		t.Fatal(err)
	}
	defer opened.Close()
	set.SetIndexID(otherDevice, 7)
	set.Update(protocol.LocalDeviceID, []protocol.FileInfo{entryOfSequence(1), entryOfSequence(2)})
	set.Update(otherDevice, []protocol.FileInfo{entryOfSequence(1)})
	if err := db.NewMiscDataNamespace(opened).PutString(keyOfRan, "v1.29.5"); err != nil {
		t.Fatal(err)
	}
	return dir, docs
}

// All that is told of a home is what its configuration and its index say, whether it is opened as that of a stopped Syncthing or of one that may run.
func TestWhatIsToldOfAHome(t *testing.T) {
	dir, docs := aHome(t)
	for isLive, open := range map[bool]func(dir, data string, maps ...Map) (*Home, error){false: Open, true: OpenLive} {
		home, err := open(dir, "")
		if err != nil {
			t.Fatal(err)
		}
		index, err := home.Index(home.Config.Folders[0])
		if err != nil {
			t.Fatal(err)
		}
		other := otherDevice.String()
		folder := index.Folder()
		expected := part.Folder{ID: "docs", Label: "Documents", Kind: "receive-only", Path: docs, Directory: folder.Directory, IndexID: folder.IndexID, Max: 2, IgnoresPermissions: true,
			TimeWindow: 2, ScansAttributes: true, Sharing: []part.Sharing{{Device: other, Name: "server", Encrypted: true}, {Device: protocol.DeviceID{3}.String(), Name: "nas"}},
			Views: []part.View{{Device: other, IndexID: 7, Max: 1}}, PausedDevices: []string{other}, Indexed: 2, Options: &part.Options{MaxConflicts: 3, IgnoresDeletions: true, Versions: &part.Versions{Kind: part.VersionsNone}}}
		if folder.IndexID == 0 || folder.Directory == "" || !reflect.DeepEqual(folder, expected) {
			t.Errorf("%+v, not %+v", folder, expected)
		}
		if home.Name() != "laptop" || home.Syncthing != "v1.29.5" || len(home.Doubts()) > 0 || (home.Copied.Rounds > 0) != isLive {
			t.Errorf("%s runs %s; %q", home.Name(), home.Syncthing, home.Doubts())
		}
		checkBytes(t, index)
		copied := home.copied
		index.Close()
		checkWrittenMeanwhile(t, dir, index, isLive)
		home.Close()
		if _, err := os.Stat(copied); !errors.Is(err, os.ErrNotExist) {
			t.Errorf("the copy stays: %v", err)
		}
	}
}

// checkBytes compares how many bytes an index of two files has, of all names and of some. A directory has none.
func checkBytes(t *testing.T, index *Index) {
	const each = 8 * protocol.MinBlockSize
	first := entryOfSequence(1).Name
	slices := int64(0)
	for slice := 1; slice <= 3; slice++ {
		bytes, err := index.Bytes(choice.Names{Slice: slice, Slices: 3})
		if err != nil {
			t.Error(err)
		}
		slices += bytes
	}
	if slices != 2*each {
		t.Errorf("%d bytes in all slices", slices)
	}
	for _, one := range []struct {
		names choice.Names
		bytes int64
	}{{choice.Names{}, 2 * each}, {choice.Names{Prefix: first}, each}, {choice.Names{Prefix: "none"}, 0}} {
		if bytes, err := index.Bytes(one.names); bytes != one.bytes || err != nil {
			t.Errorf("%+v: %d bytes, not %d: %v", one.names, bytes, one.bytes, err)
		}
	}
}

// checkWrittenMeanwhile has a file of an index come and go: that is told of a stopped device's alone.
func checkWrittenMeanwhile(t *testing.T, dir string, index *Index, isLive bool) {
	if err := index.Check(); err != nil {
		t.Error(err)
	}
	path := filepath.Join(dir, databaseName, "more")
	if err := os.WriteFile(path, nil, 0o600); err != nil {
		t.Fatal(err)
	}
	if err := index.Check(); (err == nil) != isLive {
		t.Errorf("an index that changed: %v", err)
	}
	if err := os.Remove(path); err != nil {
		t.Fatal(err)
	}
}

// What is no home, or has no index that is read, is told as what it is by each call that asks for one.
func TestWhatIsNoHome(t *testing.T) {
	dir, _ := aHome(t)
	empty, two, both, file := t.TempDir(), t.TempDir(), t.TempDir(), filepath.Join(dir, "config.xml")
	for _, path := range []string{filepath.Join(two, indexOfTwo), filepath.Join(both, indexOfTwo), filepath.Join(both, databaseName)} {
		if err := os.Mkdir(path, 0o700); err != nil {
			t.Fatal(err)
		}
	}
	for _, row := range []struct {
		dir                string
		has, is            bool
		stopped            bool
		ofTwo, asData, run string // why it isn't one by each call; nothing where it is
	}{
		{dir, true, true, true, "", "", "no Syncthing runs on " + dir + ": none holds the lock of " + dir},
		{empty, false, false, false, "", empty + ": no index " + databaseName, empty + ": no index " + databaseName},
		{two, true, true, false, "refused: " + two + ": its index is that of Syncthing 2 (index-v2), which isn't read", "", "no Syncthing runs on " + two},
		{both, true, true, false, "refused: " + both + ": it has an index of Syncthing 1 and one of Syncthing 2", "", "no Syncthing runs on " + both},
		{file, false, false, false, "", file + ": no index", file + ": no index"},
	} {
		tells := func(err error, told string) bool {
			return (err == nil) == (told == "") && (err == nil || strings.Contains(err.Error(), told))
		}
		if HasIndex(row.dir) != row.has || IsHome(row.dir) != row.is || IsStopped(row.dir, "") != row.stopped || IsStopped("", row.dir) != row.stopped || IsHeld(row.dir) {
			t.Errorf("%s: %v, %v, %v", row.dir, HasIndex(row.dir), IsHome(row.dir), IsStopped(row.dir, ""))
		}
		if one, data, run := checkOne(row.dir), CheckIndex(row.dir, ""), CheckRuns(row.dir, ""); !tells(one, row.ofTwo) || !tells(data, row.asData) || !tells(run, row.run) {
			t.Errorf("%s: %v, %v, %v", row.dir, one, data, run)
		}
	}
	if err := CheckIndex(empty, dir); err != nil {
		t.Error(err)
	}
	for _, open := range []func(dir, data string, maps ...Map) (*Home, error){Open, OpenLive} {
		for data, told := range map[string]string{empty: empty + ": no index", two: "its index is that of Syncthing 2", both: "it has an index of Syncthing 1 and one"} {
			if home, err := open(dir, data); home != nil || err == nil || !strings.Contains(err.Error(), told) {
				t.Errorf("%s: %v", data, err)
			}
		}
	}
}

// A folder's words for what its configuration has: its type, and its window for times.
func TestWordsOfAConfiguration(t *testing.T) {
	for kind, word := range map[config.FolderType]string{config.FolderTypeSendReceive: "send-receive", config.FolderTypeSendOnly: "send-only",
		config.FolderTypeReceiveOnly: "receive-only", config.FolderTypeReceiveEncrypted: "encrypted"} {
		if kindOf(kind) != word {
			t.Errorf("%v is %s", kind, kindOf(kind))
		}
	}
	for window, seconds := range map[int]int64{-1: 0, 0: 0, 1: 1, math.MaxInt32 - 1: math.MaxInt32 - 1, math.MaxInt32: math.MaxInt32, math.MaxInt32 + 1: math.MaxInt32} {
		if made := timeWindowOf(config.FolderConfiguration{RawModTimeWindowS: window}); made != seconds {
			t.Errorf("%d is %d", window, made)
		}
	}
}

// A mark beside an index is seen as the home is opened, and what Syncthing's packages panic with is an error.
func TestAHomeWithAMarkAndAnIndexThatPanics(t *testing.T) {
	dir, _ := aHome(t)
	if err := os.WriteFile(filepath.Join(dir, databaseName)+endingOfMark, nil, 0o600); err != nil {
		t.Fatal(err)
	}
	for _, open := range []func(dir, data string, maps ...Map) (*Home, error){Open, OpenLive} {
		home, err := open(dir, "")
		if err != nil || !home.ToRepair {
			t.Fatal(home, err)
		}
		opened := home.index
		home.index = nil
		if index, err := home.Index(home.Config.Folders[0]); index != nil || err == nil || !strings.HasPrefix(err.Error(), "folder docs: its index can't be read: ") {
			t.Errorf("%v, %v", index, err)
		}
		home.index = opened
		home.Close()
	}
}

// Where an index's directory can't be listed, its logs aren't known.
func TestLogsThatCannotBeListed(t *testing.T) {
	if numbers, err := (&liveCopy{from: filepath.Join(t.TempDir(), "none")}).logNumbers(1); !errors.Is(err, os.ErrNotExist) || numbers != nil {
		t.Errorf("%v, %v", numbers, err)
	}
}

// What is ignored has no bytes that count.
func TestBytesOfWhatIsIgnored(t *testing.T) {
	dir, _ := aHome(t)
	set, opened, err := openSet(filepath.Join(dir, databaseName))
	if err != nil {
		t.Fatal(err)
	}
	ignored := entryOfSequence(3)
	ignored.LocalFlags = protocol.FlagLocalIgnored
	set.Update(protocol.LocalDeviceID, []protocol.FileInfo{ignored})
	opened.Close()
	index := firstIndex(t, dir)
	if bytes, err := index.Bytes(choice.Names{Prefix: ignored.Name}); bytes != 0 || err != nil {
		t.Errorf("%d bytes, %v", bytes, err)
	}
}

// Of what a round has copied, tables stay that are wanted still; what is taken away is copied again.
func TestWhatARoundLeaves(t *testing.T) {
	room := t.TempDir()
	for _, name := range []string{"000005.ldb", "000006.sst", "000007.ldb", "000008.log", "CURRENT"} {
		if err := os.WriteFile(filepath.Join(room, name), nil, 0o600); err != nil {
			t.Fatal(err)
		}
	}
	copied := &liveCopy{to: room, tables: map[int64]bool{5: true, 6: true, 8: true}}
	if err := copied.clear(&manifest{tables: map[int64]int64{6: 0, 7: 0, 8: 0}}); err != nil {
		t.Fatal(err)
	}
	left, err := os.ReadDir(room)
	if err != nil || len(left) != 1 || left[0].Name() != "000006.sst" || !reflect.DeepEqual(copied.tables, map[int64]bool{6: true}) {
		t.Errorf("%v, %v, %v", left, copied.tables, err)
	}
}
