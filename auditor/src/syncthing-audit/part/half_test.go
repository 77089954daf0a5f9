package part

import (
	"bytes"
	"math"
	"reflect"
	"strings"
	"testing"
	"time"

	"github.com/syncthing/syncthing/lib/protocol"
	"syncthing-audit/bep"
)

const (
	someLook = "00112233445566778899aabbccddeeff"
	someWalk = "ffeeddccbbaa99887766554433221100"
)

// headOfDisks gives the head of a part of disks alone.
func headOfDisks() *Head {
	made := &Head{Device: protocol.DeviceID{7: 1}.String(), Made: time.Unix(1, 0), Half: NewHalf(someWalk, someLook, "linux", []int64{bep.MinBlockSize}),
		Folders: []Folder{{ID: "docs", Directory: "here", Sharing: []Sharing{}, Views: []View{}, Ignores: &Ignores{Lines: []string{"*.tmp"}}}}}
	made.Version = made.DueVersion()
	return made
}

// A part of disks alone says nothing that an index says, and what it says of its system is what this program knows of.
func TestHeadsOfDisks(t *testing.T) {
	if err := checkHead(headOfDisks()); err != nil {
		t.Fatal(err)
	}
	for what, one := range map[string]struct {
		change func(*Head)
		told   string
	}{
		"an older version":           {func(h *Head) { h.Version = 1 }, "by what it says"},
		"both halves":                {func(h *Head) { h.Wire = NewWire(protocol.DeviceID{7: 2}.String(), true) }, "says what an index"},
		"a look":                     {func(h *Head) { h.Look = &Look{Home: "home", ID: someLook} }, "says what an index"},
		"another index":              {func(h *Head) { h.Newer = &Newer{} }, "says what an index"},
		"a version of Syncthing":     {func(h *Head) { h.Runs = "v2" }, "says what an index"},
		"other folders":              {func(h *Head) { h.Others = []Other{} }, "says what an index"},
		"no id":                      {func(h *Head) { h.Half.ID = "" }, "the id of its walk"},
		"an id of large letters":     {func(h *Head) { h.Half.ID = strings.ToUpper(someWalk) }, "the id of its walk"},
		"no look before":             {func(h *Head) { h.Half.After = "00" }, "that of the look before"},
		"no system":                  {func(h *Head) { h.Half.System = "" }, "of its system"},
		"Windows with modes":         {func(h *Head) { h.Half.System = "windows" }, "of its system"},
		"Linux without modes":        {func(h *Head) { h.Half.NoModes = true }, "of its system"},
		"times of whole days":        {func(h *Head) { h.Half.Resolution = 86400e9 }, "of its system"},
		"times of no length":         {func(h *Head) { h.Half.Resolution = 0 }, "of its system"},
		"coarse times on Linux":      {func(h *Head) { h.Half.Resolution = 100 }, "of its system"},
		"one size of blocks twice":   {func(h *Head) { h.Half.BlockSizes = []int64{bep.MinBlockSize, bep.MinBlockSize} }, "no size of blocks"},
		"blocks of no size":          {func(h *Head) { h.Half.BlockSizes = []int64{1} }, "no size of blocks"},
		"blocks out of their places": {func(h *Head) { h.Half.BlockSizes = []int64{2 * bep.MinBlockSize, bep.MinBlockSize} }, "no size of blocks"},
		"no folder":                  {func(h *Head) { h.Folders = nil }, "no folder"},
		"a folder with an index":     {func(h *Head) { h.Folders[0].IndexID = 1 }, "more is told"},
		"a folder of a kind":         {func(h *Head) { h.Folders[0].Kind = "send-only" }, "in part"},
		"a folder with a window":     {func(h *Head) { h.Folders[0].TimeWindow = 2 }, "in part"},
		"a folder at rest":           {func(h *Head) { h.Folders[0].Rest = &Rest{State: RestIdle} }, "in part"},
		"a folder with options":      {func(h *Head) { h.Folders[0].Options = &Options{} }, "in part"},
		"a window below 0":           {func(h *Head) { configured(&h.Folders[0]).TimeWindow = -1 }, "in part"},
		"a window that is too long":  {func(h *Head) { configured(&h.Folders[0]).TimeWindow = math.MaxInt32 + 1 }, "in part"},
		"a folder of another kind": {func(h *Head) {
			h.Folders[0].Kind, h.Folders[0].Rest, h.Folders[0].Options = KindEncrypted, &Rest{State: RestIdle}, &Options{}
		}, "its kind is"},
		"a folder without patterns": {func(h *Head) { h.Folders[0].Ignores = nil }, ".stignore isn't told"},
		"very many patterns":        {func(h *Head) { h.Folders[0].Ignores.Lines = make([]string, mostIgnoreLines+1) }, ".stignore isn't told"},
		"no directory":              {func(h *Head) { h.Folders[0].Directory = "" }, "or less"},
	} {
		head := headOfDisks()
		one.change(head)
		if err := checkHead(head); err == nil || !strings.Contains(err.Error(), one.told) {
			t.Errorf("%s: %v", what, err)
		}
	}
}

// configured gives a folder what is configured of it.
func configured(one *Folder) *Folder {
	one.Kind, one.Rest, one.Options = "send-receive", &Rest{State: RestIdle}, &Options{}
	return one
}

// A head of disks may come up to each limit, and what a program says of its own system is what another one knows of.
func TestWhatAHeadOfDisksMayHave(t *testing.T) {
	sizes := []int64{4 * bep.MinBlockSize, bep.MinBlockSize, 4 * bep.MinBlockSize}
	for what, change := range map[string]func(*Head){
		"a configuration":          func(h *Head) { configured(&h.Folders[0]) },
		"the longest window":       func(h *Head) { configured(&h.Folders[0]).TimeWindow = math.MaxInt32 },
		"times of whole seconds":   func(h *Head) { h.Half.Resolution = 1e9 },
		"as many patterns":         func(h *Head) { h.Folders[0].Ignores.Lines = make([]string, mostIgnoreLines) },
		"blocks in any order":      func(h *Head) { h.Half = NewHalf(someWalk, someLook, "linux", sizes) },
		"Windows, as it is walked": func(h *Head) { h.Half = NewHalf(someWalk, someLook, "windows", sizes) },
	} {
		head := headOfDisks()
		change(head)
		if err := checkHead(head); err != nil {
			t.Errorf("%s: %v", what, err)
		}
	}
	if made := NewHalf(someWalk, someLook, "linux", sizes); made.Resolution != 1 || made.NoModes || !reflect.DeepEqual(sizes, []int64{4 * bep.MinBlockSize, bep.MinBlockSize, 4 * bep.MinBlockSize}) {
		t.Errorf("%+v", made)
	}
}

// What isn't seen of a device over the wire and on its disks together is told by what its disks and its configuration say.
func TestWhatIsStillUnseen(t *testing.T) {
	for _, one := range []struct {
		system     string
		configured []bool
		unseen     []string
	}{
		{"linux", []bool{true}, []string{}},
		{"linux", []bool{true, true}, []string{}},
		{"linux", []bool{false}, []string{UnseenKind, UnseenScans}},
		{"linux", []bool{false, true}, []string{UnseenKind, UnseenScans}},
		{"linux", []bool{true, false}, []string{UnseenKind, UnseenScans}},
		{"windows", []bool{true}, []string{UnseenPermissions}},
		{"windows", []bool{false}, []string{UnseenKind, UnseenPermissions, UnseenScans}},
	} {
		head := &Head{Half: NewHalf(someWalk, someLook, one.system, nil)}
		for _, is := range one.configured {
			folder := Folder{}
			if is {
				configured(&folder)
			}
			head.Folders = append(head.Folders, folder)
		}
		if unseen := head.StillUnseen(); !reflect.DeepEqual(unseen, one.unseen) {
			t.Errorf("%+v: %q", one, unseen)
		}
	}
}

// A part over the wire whose disks are in another part has no bytes, and names that part by its id.
func TestHeadsWithoutDisks(t *testing.T) {
	head := headOverWire()
	head.Wire = NewWire(head.Wire.Observer, true)
	head.Wire.Half = someWalk
	head.Version = head.DueVersion()
	if err := checkHead(head); err != nil || head.Version != VersionOfDisks {
		t.Fatal(err, head.Version)
	}
	for told, change := range map[string]func(*Head){
		"an id that is none": func(h *Head) { h.Wire.Half = "walk" },
		"has bytes":          func(h *Head) { h.Wire.Unseen = NewWire("", false).Unseen },
		"by what it says":    func(h *Head) { h.Wire.Half = "" },
	} {
		made, wire := *head, *head.Wire
		made.Wire = &wire
		change(&made)
		if err := checkHead(&made); err == nil || !strings.Contains(err.Error(), told) {
			t.Errorf("%s: %v", told, err)
		}
	}
}

// A disk tells of a name what stands there, or that it moved, and nothing of an index.
func TestNamesOfDisks(t *testing.T) {
	content := Content{Size: 1, BlockSize: bep.MinBlockSize}
	file := func() *Name {
		return &Name{Name: "a", Disk: &Node{Size: 1, Contents: []Content{content}, Permissions: 0o644}}
	}
	half := headOfDisks().Half
	for _, one := range []*Name{file(), {Name: "a", Moved: []string{MovedDisk}}, {Name: "a", Out: []LeftOut{{Kind: Special, Why: "a pipe"}}}} {
		if err := checkHalfName(one, half); err != nil {
			t.Errorf("%+v: %v", one, err)
		}
	}
	for what, change := range map[string]func(*Name){
		"a record":         func(n *Name) { n.Own = &Record{} },
		"a view":           func(n *Name) { n.Views = []Seen{{}} },
		"what is received": func(n *Name) { n.Receiving = "1" },
		"a record moved":   func(n *Name) { *n = Name{Name: "a", Moved: []string{MovedRecord}} },
		"a stamp":          func(n *Name) { n.Disk.Stamp = "1" },
		"what differs":     func(n *Name) { n.Disk.Differ = &Differ{} },
		"other blocks":     func(n *Name) { n.Disk.Contents[0].BlockSize = 4 * bep.MinBlockSize },
	} {
		name := file()
		change(name)
		if checkHalfName(name, half) == nil {
			t.Errorf("%s is read", what)
		}
	}
	windows := NewHalf(someWalk, someLook, "windows", nil)
	if checkHalfName(file(), windows) == nil {
		t.Error("modes of Windows are read")
	}
	for _, permissions := range []uint32{0, 1} {
		plain := file()
		if plain.Disk.Permissions = permissions; (checkHalfName(plain, windows) == nil) != (permissions == 0) {
			t.Errorf("on Windows, permissions %d", permissions)
		}
	}
	for size, is := range map[int64]bool{bep.BlockSize(1 << 40): true, 8 * bep.MinBlockSize: true, 4 * bep.MinBlockSize: false} {
		large := &Name{Name: "a", Disk: &Node{Size: 1 << 40, Contents: []Content{{Size: 1 << 40, BlockSize: size}}}}
		if (checkHalfName(large, NewHalf(someWalk, someLook, "linux", []int64{8 * bep.MinBlockSize})) == nil) != is {
			t.Errorf("blocks of %d bytes", size)
		}
	}
}

// What is written is read; a part that ends too early, ends as an index does, or isn't in order, isn't.
func TestPartsOfDisks(t *testing.T) {
	lines := []Line{{Begin: &Begin{"docs"}}, {Name: &Name{Name: "a", Disk: &Node{Type: bep.Directory, Permissions: 0o755}}},
		{Name: &Name{Name: "b", Moved: []string{MovedDisk}}}, {End: &End{Folder: "docs", Names: 2, Last: true, Temporary: &Count{}}}}
	written := func(lines []Line) error {
		var text bytes.Buffer
		writer, err := NewWriter(&text, headOfDisks())
		for place := 0; err == nil && place < len(lines); place++ {
			err = writer.Take(lines[place])
		}
		if err != nil {
			t.Fatal(err)
		}
		if err := writer.Close(); err != nil {
			t.Fatal(err)
		}
		reader, err := NewReader(&text)
		for range lines {
			if err == nil {
				_, err = reader.Next()
			}
		}
		return err
	}
	if err := written(lines); err != nil {
		t.Fatal(err)
	}
	indexed := append(append([]Line{}, lines[:3]...), Line{End: &End{Folder: "docs", Names: 2, Max: 7, Last: true}})
	ignoring := append(append([]Line{}, lines[:3]...), Line{End: &End{Folder: "docs", Names: 2, ToIgnore: 1, Last: true}})
	for told, wrong := range map[string][]Line{"cut off": lines[:3], "isn't in its place": {lines[0], lines[2], lines[1], lines[3]}, "what an index says": indexed,
		"of disks alone": ignoring} {
		err := written(wrong)
		if told == "cut off" && err == nil {
			continue // its end is asked for by one line more
		}
		if err == nil || !strings.Contains(err.Error(), told) {
			t.Errorf("%s: %v", told, err)
		}
	}
}
