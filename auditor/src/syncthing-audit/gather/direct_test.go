package gather

import (
	"errors"
	"math/rand"
	"os"
	"path/filepath"
	"reflect"
	"sort"
	"strings"
	"testing"

	"github.com/syncthing/syncthing/lib/protocol"
	"syncthing-audit/choice"
	"syncthing-audit/device"
	"syncthing-audit/disk"
	"syncthing-audit/part"
)

// direct reads a folder plainly: each name by itself, each file as a whole. It gives the names that a part has, and what its end says.
func (m *madeUp) direct(t *testing.T, names choice.Names, keep bool) ([]*part.Name, *part.End) {
	end := &part.End{Folder: "docs", Max: 77, Last: true, Temporary: &part.Count{}}
	if names.IsAll() {
		end.Linked = &part.Count{}
	}
	told, hidden := []*part.Name{}, []*part.Name{}
	onDisk := m.onDisk(t, names, end)
	for _, name := range m.namesOf(onDisk) {
		if !names.Has("docs", name) {
			continue
		}
		line := m.nameOf(name, onDisk[name], keep, t)
		if isIgnored(name) && !m.isIndexed(name) && line.Disk != nil {
			line.Name, line.Disk = part.HiddenName("docs", name).Bytes(), &part.Node{Size: line.Disk.Size}
			hidden = append(hidden, line)
		} else {
			told = append(told, line)
		}
		if line.Disk != nil && line.Disk.Contents != nil {
			end.Bytes += line.Disk.Size
		}
	}
	sort.Slice(hidden, func(a, b int) bool { return hidden[a].Name < hidden[b].Name })
	told = append(told, hidden...)
	end.Names = int64(len(told))
	return told, end
}

// onDisk lists what stands in the directory, but what is Syncthing's own. It counts Syncthing's temporary files.
func (m *madeUp) onDisk(t *testing.T, names choice.Names, end *part.End) map[string]os.FileInfo {
	found := map[string]os.FileInfo{}
	err := filepath.Walk(m.path, func(path string, info os.FileInfo, err error) error {
		name := strings.TrimPrefix(strings.TrimPrefix(path, m.path), "/")
		base := filepath.Base(name)
		isTemporary := strings.HasPrefix(base, ".syncthing.") || strings.HasPrefix(base, "~syncthing~")
		switch {
		case err != nil || name == "":
		case base == ".stfolder":
			return filepath.SkipDir
		case isTemporary && names.Has("docs", name):
			size := int64(0)
			if info.Mode().IsRegular() {
				size = info.Size()
			}
			*end.Temporary = part.Count{Names: end.Temporary.Names + 1, Bytes: end.Temporary.Bytes + size}
		case !isTemporary:
			found[name] = info
		}
		return err
	})
	if err != nil {
		t.Fatal(err)
	}
	return found
}

// nameOf gives what a part has of one name.
func (m *madeUp) nameOf(name string, info os.FileInfo, keep bool, t *testing.T) *part.Name {
	line := &part.Name{Name: part.Bytes(name)}
	var own device.Entry
	for place, entries := range [][]device.Entry{m.own, m.views[0], m.views[1]} {
		for _, entry := range entries {
			if entry.Name != name {
				continue
			}
			if place == 0 {
				own = entry
			}
			addEntry(line, place, entry, keep)
		}
	}
	if info != nil {
		addNode(line, info, filepath.Join(m.path, name), t)
	}
	if isIgnored(name) {
		size := int64(0)
		if line.Disk != nil {
			size = line.Disk.Size
		} else if line.Own != nil && line.Own.Content != nil {
			size = line.Own.Content.Size
		}
		line.Out = append(line.Out, part.LeftOut{Kind: part.Ignored, Why: "it is ignored there by .stignore", Bytes: size})
	}
	if line.Disk != nil && line.Disk.Type == int(protocol.FileInfoTypeFile) && isWholeHere(line) {
		addContents(line, own, filepath.Join(m.path, name), keep, t)
	}
	return line
}

// isWholeHere says whether what is left out of a name, if anything is, is what others have.
func isWholeHere(line *part.Name) bool {
	for _, out := range line.Out {
		if out.Kind != part.Ignored || out.Why != "it knows that another device ignores it, or has still to scan it" {
			return false
		}
	}
	return true
}

// isIgnored says whether the folder's one pattern ignores a name.
func isIgnored(name string) bool {
	return strings.HasSuffix(name, ".log") || strings.Contains(name, ".log/")
}

// isIndexed says whether an index has something of a name.
func (m *madeUp) isIndexed(name string) bool {
	for _, entries := range [][]device.Entry{m.own, m.views[0], m.views[1]} {
		for _, entry := range entries {
			if entry.Name == name {
				return true
			}
		}
	}
	return false
}

// addEntry adds what an index says: the device's own, or that of a view.
func addEntry(line *part.Name, place int, entry device.Entry, keep bool) {
	if entry.Out != nil {
		line.Out = append(line.Out, *entry.Out)
		return
	}
	if content := entry.Record.Content; keep && content != nil && content.Size > block && content.BlockSize != block {
		line.Out = append(line.Out, part.LeftOut{Kind: part.Large, Bytes: content.Size,
			Why: "a document with bytes has files of at most 67108864 bytes, in blocks of the size for their length"})
	}
	if place == 0 {
		line.Own = entry.Record
	} else {
		line.Views = append(line.Views, part.Seen{View: place - 1, Record: entry.Record})
	}
}

// addNode adds what stands on the disk, or why no document has such a thing.
func addNode(line *part.Name, info os.FileInfo, path string, t *testing.T) {
	out := func(kind, why string) {
		line.Out = append(line.Out, part.LeftOut{Kind: kind, Why: why, Bytes: info.Size()})
	}
	node := &part.Node{ModifiedS: info.ModTime().Unix(), ModifiedNs: info.ModTime().Nanosecond(), Permissions: uint32(info.Mode() & os.ModePerm)}
	switch {
	case strings.Contains(path, "\xff"):
		out(part.OddName, "its name isn't UTF-8")
		return
	case info.Mode()&os.ModeSymlink != 0:
		target, err := os.Readlink(path)
		if err != nil {
			t.Fatal(err)
		}
		if len(target) > 1024 {
			out(part.OddTarget, "its target hasn't 1 to 1024 bytes")
			return
		}
		node.Type, node.Target = int(protocol.FileInfoTypeSymlink), target
	case info.IsDir():
		node.Type = int(protocol.FileInfoTypeDirectory)
	case info.Mode().IsRegular():
		node.Type, node.Size = int(protocol.FileInfoTypeFile), info.Size()
	default:
		out(part.Special, "it is no file, directory or symlink")
		return
	}
	line.Disk = node
}

// addContents adds a file's contents: in blocks of the own record's size, and of those of views with its length where more blocks than one differ.
func addContents(line *part.Name, own device.Entry, path string, keep bool, t *testing.T) {
	data, err := os.ReadFile(path)
	if err != nil {
		t.Fatal(err)
	}
	sizes := []int64{block}
	if own.Record != nil && own.Record.Content != nil {
		sizes[0] = own.Record.Content.BlockSize
	}
	for _, seen := range line.Views {
		if content := seen.Record.Content; content != nil && content.Size == int64(len(data)) && isAnotherCut(content.Size, content.BlockSize, sizes) {
			sizes = append(sizes, content.BlockSize)
		}
	}
	for _, size := range sizes {
		line.Disk.Contents = append(line.Disk.Contents, contentOf(len(data), size, hashesOf(data, size)))
	}
	if own.Record != nil && own.Record.Content != nil {
		line.Disk.Differ = differing(own.Blocks, hashesOf(data, sizes[0]))
	}
	if keep {
		line.Disk.Data = data
	}
}

// isAnotherCut says whether blocks of a size cut a file otherwise than blocks of the sizes before do. One block is the same whatever its size could be.
func isAnotherCut(length, size int64, before []int64) bool {
	for _, other := range before {
		if other == size {
			return false
		}
	}
	return length > before[0] || length > size
}

// differing says which blocks of a file aren't the recorded ones.
func differing(recorded, found [][32]byte) *part.Differ {
	differ := &part.Differ{}
	at := func(hashes [][32]byte, place int) *part.Hash {
		if place >= len(hashes) {
			return nil
		}
		hash := part.Hash(hashes[place])
		return &hash
	}
	for place := 0; place < len(recorded) || place < len(found); place++ {
		was, is := at(recorded, place), at(found, place)
		if was != nil && is != nil && *was == *is {
			continue
		}
		if differ.Count++; differ.Count == 1 {
			differ.First = part.Pair{Recorded: was, Found: is}
		}
		if last := len(differ.Ranges) - 1; last >= 0 && differ.Ranges[last][1] == int64(place)-1 {
			differ.Ranges[last][1]++
		} else {
			differ.Ranges = append(differ.Ranges, [2]int64{int64(place), int64(place)})
		}
	}
	if differ.Count == 0 {
		return nil
	}
	return differ
}

// read gives the names and the end of a part of the folder.
func (m *madeUp) read(names choice.Names, keep bool) (told []*part.Name, end *part.End, err error) {
	pool := disk.NewPool(2)
	defer pool.Close()
	reading := &Device{Folders: []Folder{m}, Pool: pool, Names: names, Bytes: keep}
	err = reading.Run(reading.Head(), func(line part.Line) error {
		if line.Name != nil {
			told = append(told, line.Name)
		}
		if line.End != nil {
			end = line.End
		}
		return nil
	})
	return told, end, err
}

// A part has what a plain reading has, name by name, whatever a folder's disk, index and views say.
func TestAPartIsWhatAPlainReadingFinds(t *testing.T) {
	for seed := int64(0); seed < 100; seed++ {
		random := rand.New(rand.NewSource(seed))
		folder := makeUp(t, random, 4+random.Intn(len(lengths)-3))
		names := []choice.Names{{}, {}, {Prefix: "a"}, {Slice: 2, Slices: 3}}[random.Intn(4)]
		keep := random.Intn(3) == 0
		told, end, err := folder.read(names, keep)
		if err != nil {
			t.Fatal(seed, err)
		}
		expected, last := folder.direct(t, names, keep)
		if len(told) != len(expected) || !reflect.DeepEqual(end, last) {
			t.Fatalf("%d: %d names and %+v, not %d and %+v", seed, len(told), end, len(expected), last)
		}
		for place := range told {
			if keep {
				told[place] = withoutBlocks(told[place])
			}
			if !reflect.DeepEqual(told[place], expected[place]) {
				t.Fatalf("%d: %q: %+v, %+v, not %+v, %+v", seed, told[place].Name, told[place], told[place].Disk, expected[place], expected[place].Disk)
			}
		}
	}
}

// withoutBlocks gives a name whose records have no blocks of their own, which only documents with bytes take.
func withoutBlocks(name *part.Name) *part.Name {
	if name.Own != nil {
		name.Own.Blocks = nil
	}
	for _, seen := range name.Views {
		seen.Record.Blocks = nil
	}
	return name
}

// Where a reading of the index fails, wherever that is, the device can't be read. What was told before is told as ever, and no end comes.
func TestAReadingThatFailsEndsThePart(t *testing.T) {
	for seed := int64(0); seed < 60; seed++ {
		random := rand.New(rand.NewSource(seed))
		folder := makeUp(t, random, 4)
		expected, _ := folder.direct(t, choice.Names{}, false)
		folder.broken, folder.after = []string{"own", "0", "1", "check"}[random.Intn(4)], random.Intn(12)
		told, end, err := folder.read(choice.Names{}, false)
		if !errors.Is(err, errMadeUp) || end != nil || len(told) > len(expected) {
			t.Fatalf("%d: %v, %+v, %d names", seed, err, end, len(told))
		}
		for place := range told {
			if !reflect.DeepEqual(told[place], expected[place]) {
				t.Fatalf("%d: %+v, not %+v", seed, told[place], expected[place])
			}
		}
	}
}

// A file that takes more room than the queue has is read all the same, alone.
func TestAFileThatIsHeavierThanTheQueue(t *testing.T) {
	folder := &madeUp{directory: directory{t.TempDir()}}
	for name, size := range map[string]int64{"a": 1, "heavy": 32*disk.MostWaiting + block, "z": 1} {
		if err := os.WriteFile(filepath.Join(folder.path, name), make([]byte, size), 0o600); err != nil {
			t.Fatal(err)
		}
	}
	told, end, err := folder.read(choice.Names{}, true)
	expected, last := folder.direct(t, choice.Names{}, true)
	if err != nil || !reflect.DeepEqual(end, last) || !reflect.DeepEqual(told, expected) {
		t.Errorf("%v, %+v, not %+v", err, end, last)
	}
}

// Whoever takes the lines may fail at any of them: the reading ends with that error, and gives no line after it.
func TestWhoeverTakesTheLinesMayFail(t *testing.T) {
	folder := makeUp(t, rand.New(rand.NewSource(5)), 4)
	expected, _ := folder.direct(t, choice.Names{}, false)
	for last := 1; last <= len(expected)+2; last++ { // the beginning, each name, the end
		pool := disk.NewPool(1)
		reading, given := &Device{Folders: []Folder{folder}, Pool: pool}, 0
		err := reading.Run(reading.Head(), func(part.Line) error {
			if given++; given == last {
				return errMadeUp
			}
			return nil
		})
		pool.Close()
		if !errors.Is(err, errMadeUp) || given != last {
			t.Errorf("%d lines, not %d: %v", given, last, err)
		}
	}
}
