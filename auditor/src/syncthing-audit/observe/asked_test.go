package observe

import (
	"context"
	"errors"
	"path/filepath"
	"strings"
	"testing"

	"github.com/syncthing/syncthing/lib/protocol"
	hashing "syncthing-audit/disk"
	"syncthing-audit/fixture/stranger"
	"syncthing-audit/part"
	"syncthing-audit/wire"
)

// far is a device that is looked at in tests, with an observer of it.
type far struct {
	*stranger.Device
	observer *wire.Observer
}

// meet makes such a device.
func meet(t *testing.T, records map[string][]protocol.FileInfo, disk map[string]string) *far {
	observer, err := wire.Create(filepath.Join(t.TempDir(), "key"))
	if err != nil {
		t.Fatal(err)
	}
	return &far{stranger.New(t, observer.ID, stranger.State{Name: "far", IndexID: 42, Records: records, Disk: disk, Hidden: map[string]bool{}, Sealed: map[string]bool{}}), observer}
}

// dial connects to the device.
func (f *far) dial(t *testing.T, kept wire.Keeper, folders ...string) *wire.Connection {
	t.Helper()
	connection, err := f.observer.Dial(context.Background(), f.Address, f.ID, wire.Look{Folders: folders, Kept: kept}, wire.Usual)
	if err != nil {
		t.Fatal(err)
	}
	t.Cleanup(connection.Close)
	return connection
}

// first makes the first look, whose indexes are kept in a directory.
func (f *far) first(t *testing.T, directory string, folders ...string) (*Device, *wire.Connection, map[string]*Kept) {
	t.Helper()
	all := map[string]*Kept{}
	for _, id := range folders {
		kept, err := OpenKept(filepath.Join(directory, id))
		if err != nil {
			t.Fatal(err)
		}
		t.Cleanup(kept.Close)
		all[id] = kept
	}
	connection := f.dial(t, func(folder string) (*wire.Index, error) { return all[folder].Next(), nil }, folders...)
	device, err := Begin(context.Background(), connection, func(folder string) *Kept { return all[folder] }, t.TempDir())
	if err != nil {
		t.Fatal(err)
	}
	t.Cleanup(device.Close)
	return device, connection, all
}

// An observer asks a device for its records and its bytes, at a second look for what came since, and for the blocks of what a walk found otherwise.
func TestADeviceIsAsked(t *testing.T) {
	long := strings.Repeat("a", protocol.MinBlockSize) + "end"
	rotten := strings.Repeat("b", protocol.MinBlockSize) + "end"
	met := meet(t, map[string][]protocol.FileInfo{
		"docs": {stranger.Record("good", long, 1), stranger.Record("rot", long, 2), stranger.Record("small", "text", 3), stranger.Record("walked", long, 4), stranger.Record("other", long, 5)}, "pics": {stranger.Record("p", "pic", 9)},
	}, map[string]string{"docs/good": long, "docs/rot": rotten, "docs/small": "text", "docs/walked": rotten, "docs/other": rotten, "pics/p": "pic"})
	device, connection, _ := met.first(t, t.TempDir(), "docs", "none", "pics")
	ctx := context.Background()
	if len(device.Folders) != 2 || device.ID != met.ID || device.Hello.Version != "v1.29.5" || !errors.Is(device.Out["none"], wire.NotShared) || device.Folders[0].names != 5 || device.Folders[0].wentBack != 0 {
		t.Fatalf("%+v", device)
	}
	read := int64(0)
	asked := Asked{}
	if wanted, err := device.Wanted(asked); err != nil || wanted != int64(4*len(long)+7) {
		t.Errorf("%d, %v", wanted, err)
	}
	if err := device.Read(ctx, connection, asked, func(bytes int64) { read += bytes }); err != nil || read != int64(4*len(long)+7) || device.Folders[0].bytes != int64(4*len(long)+4) {
		t.Errorf("%d bytes are read: %v", read, err)
	}
	for name, text := range map[string]string{"good": long, "rot": rotten, "small": "text"} {
		found, is, err := device.Folders[0].disks.get(name)
		if err != nil || !is || found.Node == nil || found.Node.Contents[0].Hash != hashing.HashOf(hashesOf(text)) {
			t.Errorf("%s: %+v, %+v, %v", name, found, found.Out, err)
		}
	}
	connection.Close()
	room := t.TempDir()
	met.Change(func(state *stranger.State) {
		state.Records["docs"] = append(state.Records["docs"], stranger.Record("new", "new", 6))
	})
	again := met.dial(t, func(folder string) (*wire.Index, error) { return device.Since(room, folder) }, "docs", "pics")
	if err := device.End(ctx, again); err != nil || len(device.Folders) != 2 || device.again.Before(device.first) {
		t.Fatal(err)
	}
	walked := []*Walked{{Folder: "pics"}, {Folder: "docs", found: map[string]part.Content{
		"walked": {Size: int64(len(long)), BlockSize: protocol.MinBlockSize, Hash: hashing.HashOf(hashesOf(rotten))},
		"other":  {Size: int64(len(long)), BlockSize: protocol.MinBlockSize, Hash: part.Hash{1}}, // the walk found still other bytes
		"good":   {Size: int64(len(long)) + 1, BlockSize: protocol.MinBlockSize, Hash: hashing.HashOf(hashesOf(long))},
		"small":  {Size: 4, BlockSize: 2 * protocol.MinBlockSize, Hash: hashing.HashOf(hashesOf("text"))},
	}}}
	if err := device.Compare(ctx, again, walked); err != nil {
		t.Fatal(err)
	}
	differ := device.Folders[0].differ
	if found := differ["walked"]; len(differ) != 1 || found == nil || found.Count != 1 || found.Ranges[0] != [2]int64{0, 0} || device.Folders[1].differ != nil {
		t.Errorf("%+v", differ)
	}
	lines := linesOf(t, device.Folders[0])
	if lines["new"] == nil || len(lines["new"].Moved) == 0 || len(lines["good"].Moved) > 0 || lines["walked"].Differ == nil {
		t.Errorf("%+v, %+v", lines["new"], lines["walked"])
	}
	if heard := device.Folders[0].heard; heard.ID != "docs" || len(heard.Devices) != 2 {
		t.Errorf("%+v was heard", heard)
	}
	if err := device.Compare(ctx, again, []*Walked{{Folder: "none", found: walked[1].found}}); err != nil {
		t.Errorf("a folder that nobody has: %v", err)
	}
	hidden := met.dial(t, nil, "pics")
	if err := device.Compare(ctx, hidden, walked); err != nil {
		t.Errorf("a folder that isn't shared any more: %v", err)
	}
	again.Close()
	if err := device.Compare(ctx, again, walked); err == nil || !strings.HasPrefix(err.Error(), `folder "docs": `) {
		t.Errorf("over a connection that has ended: %v", err)
	}
}

// hashesOf gives the hashes of a text's blocks.
func hashesOf(text string) [][32]byte {
	var hashes [][32]byte
	for _, block := range stranger.Record("", text, 1).Blocks {
		hashes = append(hashes, *(*[32]byte)(block.Hash))
	}
	return hashes
}

// A second look takes no index that was made anew or went back, and leaves out a folder that isn't shared any more.
func TestASecondLookAtAnotherIndex(t *testing.T) {
	for why, row := range map[string]struct {
		change  func(*stranger.State)
		told    error
		folders int
	}{
		"as it was":  {func(*stranger.State) {}, nil, 2},
		"made anew":  {func(state *stranger.State) { state.IndexID = 43 }, errWentBack, 2},
		"gone back":  {func(state *stranger.State) { state.Records["docs"] = state.Records["docs"][:1] }, errWentBack, 2},
		"not shared": {func(state *stranger.State) { state.Hidden["docs"] = true }, nil, 1},
		"gone entirely": {func(state *stranger.State) {
			state.Hidden["pics"] = true
			delete(state.Records, "docs")
			state.Records["else"] = nil
		}, wire.NotShared, 0},
	} {
		met := meet(t, map[string][]protocol.FileInfo{"docs": {stranger.Record("a", "text", 1), stranger.Record("b", "text", 2)}, "pics": {stranger.Record("p", "pic", 9)}}, nil)
		device, connection, _ := met.first(t, t.TempDir(), "docs", "pics")
		connection.Close()
		met.Change(row.change)
		room := t.TempDir()
		again, err := met.observer.Dial(context.Background(), met.Address, met.ID, wire.Look{Folders: []string{"docs", "pics"},
			Kept: func(folder string) (*wire.Index, error) { return device.Since(room, folder) }}, wire.Usual)
		if err == nil {
			err = device.End(context.Background(), again)
			again.Close()
		}
		if (row.told == nil) != (err == nil) || row.told != nil && !errors.Is(err, row.told) {
			t.Errorf("%s: %v", why, err)
		}
		if err == nil && (len(device.Folders) != row.folders || (device.Out["docs"] != nil) != (row.folders < 2)) {
			t.Errorf("%s: %d folders, %v", why, len(device.Folders), device.Out)
		}
	}
}

// An index that went back since the last run is told, with the sequence from which it did.
func TestAnIndexThatWentBack(t *testing.T) {
	directory := t.TempDir()
	met := meet(t, map[string][]protocol.FileInfo{"docs": {stranger.Record("a", "text", 1), stranger.Record("b", "text", 7)}}, nil)
	_, connection, kept := met.first(t, directory, "docs")
	connection.Close()
	if err := kept["docs"].Finish(); err != nil {
		t.Fatal(err)
	}
	met.Change(func(state *stranger.State) {
		state.Records["docs"] = []protocol.FileInfo{stranger.Record("a", "text", 1), stranger.Record("c", "else", 2)}
	})
	device, _, _ := met.first(t, directory, "docs")
	if device.Folders[0].wentBack != 7 {
		t.Errorf("%d", device.Folders[0].wentBack)
	}
}

// Of a folder that is encrypted at the device, and whose password isn't given, it is told how many names and bytes there are, and nothing else is asked.
func TestAFolderThatIsEncryptedThere(t *testing.T) {
	gone := stranger.Record("gone", "", 3)
	gone.Deleted, gone.Blocks = true, nil
	directory := stranger.Record("directory", "", 4)
	directory.Type = protocol.FileInfoTypeDirectory
	odd := stranger.Record("/odd", "some", 5) // a name that no document has
	met := meet(t, map[string][]protocol.FileInfo{"docs": {stranger.Record("a", "text", 1), stranger.Record("b", "more", 2), gone, directory, odd}, "pics": {stranger.Record("p", "pic", 9)}}, nil)
	met.Change(func(state *stranger.State) { state.Sealed = map[string]bool{"docs": true} })
	device, _, _ := met.first(t, t.TempDir(), "docs", "pics")
	if out := device.Out["docs"]; len(device.Folders) != 1 || device.Folders[0].ID() != "pics" || !errors.Is(out, wire.EncryptedFolder) || !strings.HasSuffix(out.Error(), ": 4 names, 12 bytes") {
		t.Errorf("%d folders, %v", len(device.Folders), out)
	}
	alone := met.dial(t, nil, "docs")
	if none, err := Begin(context.Background(), alone, func(string) *Kept { return nil }, t.TempDir()); none != nil || !errors.Is(err, wire.EncryptedFolder) || !strings.HasPrefix(err.Error(), `folder "docs": `) {
		t.Errorf("%v, %v", none, err)
	}
}
