package halves

import (
	"io"
	"strings"
	"testing"
	"time"

	"syncthing-audit/bep"
	"syncthing-audit/choice"
	"syncthing-audit/part"
)

const (
	look = "00112233445566778899aabbccddeeff"
	walk = "ffeeddccbbaa99887766554433221100"
)

// given are the lines of a part.
type given struct {
	head  *part.Head
	lines []part.Line
}

func (g *given) Head() *part.Head { return g.head }

func (g *given) Next() (part.Line, error) {
	if len(g.lines) == 0 {
		return part.Line{}, io.EOF
	}
	line := g.lines[0]
	g.lines = g.lines[1:]
	return line, nil
}

// giving gives a part of these names.
func giving(head *part.Head, names ...*part.Name) *given {
	made := &given{head, []part.Line{{Begin: &part.Begin{Folder: "docs"}}}}
	for _, name := range names {
		made.lines = append(made.lines, part.Line{Name: name})
	}
	made.lines = append(made.lines, part.Line{End: &part.End{Folder: "docs", Names: int64(len(names)), Last: true}})
	return made
}

func idOf(last byte) string { return bep.ID{7: last}.String() }

func wireHead() *part.Head {
	made := &part.Head{Device: idOf(1), Wire: part.NewWire(idOf(2), true), Folders: []part.Folder{{ID: "docs", Kind: "send-receive", Max: 9}},
		Look: &part.Look{ID: look, After: map[string]string{}, At: time.Unix(1, 0), Ended: time.Unix(2, 0)}}
	made.Wire.Half = walk
	return made
}

func diskHead(system string) *part.Head {
	return &part.Head{Device: idOf(1), Half: part.NewHalf(walk, look, system, nil), Folders: []part.Folder{{ID: "docs", Directory: "here", Path: "/docs",
		Ignores: &part.Ignores{Lines: []string{"*.tmp"}}}}}
}

// Halves of other devices, other looks, other walks, other names and other folders aren't joined.
func TestWhatIsNoTwoHalves(t *testing.T) {
	for told, change := range map[string]func(wire, disks *part.Head){
		"one is of device " + idOf(1) + ", the other one of " + idOf(3): func(_, disks *part.Head) { disks.Device = idOf(3) },
		"first look":              func(_, disks *part.Head) { disks.Half.After = walk },
		"another walk":            func(wire, _ *part.Head) { wire.Wire.Half = look },
		"they aren't":             func(wire, _ *part.Head) { wire.Wire.Half = "" },
		"they aren't a part over": func(_, disks *part.Head) { disks.Half = nil },
		"the same --slice":        func(_, disks *part.Head) { disks.Names = choice.Names{Slice: 1, Slices: 2} },
		"looked at folder more (More), whose directory wasn't walked": func(wire, _ *part.Head) { wire.Folders = append(wire.Folders, part.Folder{ID: "more", Label: "More"}) },
		"at which the observer didn't":                                func(_, disks *part.Head) { disks.Folders = append(disks.Folders, part.Folder{ID: "more"}) },
		"the disks have folder others":                                func(_, disks *part.Head) { disks.Folders[0].ID = "others" },
	} {
		wire, disks := wireHead(), diskHead("linux")
		change(wire, disks)
		if _, err := Join(giving(wire), giving(disks)); err == nil || !strings.Contains(err.Error(), told) {
			t.Errorf("%s: %v", told, err)
		}
	}
}

// joined gives the names of two halves that are joined.
func joined(t *testing.T, wire, disks *given) map[string]*part.Name {
	stream, err := Join(wire, disks)
	if err != nil {
		t.Fatal(err)
	}
	made := map[string]*part.Name{}
	for {
		line, err := stream.Next()
		if err == io.EOF {
			return made
		}
		if err != nil {
			t.Fatal(err)
		}
		if line.Name != nil {
			made[string(line.Name.Name)] = line.Name
		}
		if line.End != nil && line.End.Names != int64(len(made)) {
			t.Errorf("%d names are told, and the end says %d", len(made), line.End.Names)
		}
	}
}

// What the two say of one name together: times of 100 ns and no modes on Windows, blocks that the walk hasn't, names that moved or wait, and patterns.
func TestNames(t *testing.T) {
	mode := uint32(0o640)
	content := func(size, block int64) *part.Content { return &part.Content{Size: size, BlockSize: block} }
	own := func(size, block int64) *part.Record {
		return &part.Record{ModifiedS: 5, ModifiedNs: 123456789, Sequence: 1, Content: content(size, block), Permissions: &mode}
	}
	node := func(ns int, size, block int64) *part.Node {
		return &part.Node{ModifiedS: 5, ModifiedNs: ns, Size: size, Contents: []part.Content{*content(size, block)}}
	}
	const small, large = bep.MinBlockSize, 2 * bep.MinBlockSize
	wire := func(name string, own *part.Record) *part.Name { return &part.Name{Name: part.Bytes(name), Own: own} }
	disk := func(name string, node *part.Node) *part.Name { return &part.Name{Name: part.Bytes(name), Disk: node} }
	names := joined(t, giving(wireHead(), wire("a", own(1, small)), wire("b", own(1, small)), wire("c", own(3*large, large)), wire("d", own(1, large)),
		wire("e", own(1, small)), &part.Name{Name: "g", Moved: []string{part.MovedRecord}}, wire("h.tmp", own(1, small))),
		giving(diskHead("windows"), disk("a", node(123456700, 1, small)), disk("b", node(123456600, 1, small)), disk("c", node(123456700, 3*large, small)),
			disk("d", node(123456700, 1, small)), disk("f", node(1, 1, small)), &part.Name{Name: "g", Moved: []string{part.MovedDisk}},
			&part.Name{Name: part.HiddenName("docs", "h.tmp").Bytes(), Disk: &part.Node{Size: 1}, Out: []part.LeftOut{{Kind: part.Ignored, Why: "ignored"}}},
			&part.Name{Name: part.HiddenName("docs", "i.tmp").Bytes(), Disk: &part.Node{Size: 1}, Out: []part.LeftOut{{Kind: part.Ignored, Why: "ignored"}}}))
	if a := names["a"]; a.Own == nil || a.Disk.ModifiedNs != 123456789 || a.Disk.Permissions != mode {
		t.Errorf("a time of 100 ns: %+v", a.Disk)
	}
	if b := names["b"]; len(b.Moved) != 1 || b.Waits == nil || b.Waits.Disk.ModifiedNs != 123456600 {
		t.Errorf("another time: %+v", b)
	}
	if c := names["c"]; len(c.Out) != 1 || c.Out[0].Kind != part.Unknown || !strings.Contains(c.Out[0].Why, "--block-size 262144") {
		t.Errorf("other blocks: %+v", c)
	}
	if d := names["d"]; len(d.Out) != 0 || d.Own == nil || d.Disk == nil {
		t.Errorf("one block: %+v", d)
	}
	for name, disk := range map[string]bool{"e": false, "f": true} {
		if found := names[name]; found.Waits == nil || (found.Waits.Disk != nil) != disk {
			t.Errorf("%s: %+v", name, found)
		}
	}
	if g := names["g"]; strings.Join(g.Moved, " ") != "record disk" {
		t.Errorf("what moved: %+v", g)
	}
	if h := names["h.tmp"]; !h.IsIgnored() || names[string(part.HiddenName("docs", "h.tmp").Bytes())] != nil ||
		names[string(part.HiddenName("docs", "i.tmp").Bytes())] == nil {
		t.Errorf("what is ignored: %+v", h)
	}
}

// Where it isn't known what .stignore means, a new name isn't told as one that waits for a scan, nor as ignored.
func TestUnknownPatterns(t *testing.T) {
	for _, ignores := range []*part.Ignores{{Unknown: "a line that isn't known"}, {Lines: []string{"#escape=|"}}, {Lines: []string{"a["}}} {
		disks := diskHead("linux")
		disks.Folders[0].Ignores = ignores
		record := &part.Record{Type: bep.Directory, Sequence: 1}
		names := joined(t, giving(wireHead(), &part.Name{Name: "old", Own: record}), giving(disks, &part.Name{Name: "new", Disk: &part.Node{Type: bep.Directory}},
			&part.Name{Name: "old", Disk: &part.Node{Type: bep.Directory}}))
		if old := names["old"]; old == nil || old.Own != record || old.Disk == nil || len(old.Out)+len(old.Moved) > 0 {
			t.Errorf("%+v: %+v", ignores, old)
		}
		found := names["new"]
		if len(found.Out) != 1 || found.Out[0].Kind != part.Unknown || len(found.Moved) > 0 || strings.HasSuffix(found.Out[0].Why, ": ") || !strings.HasSuffix(found.Out[0].Why, ignores.Unknown) {
			t.Errorf("%+v: %+v", ignores, found)
		}
	}
}

// A directory that .stignore ignores is the folder's where the index has it, since something below it is taken. Where the walk tells of none there, what
// stands there isn't known.
func TestDirectoriesThatAreTaken(t *testing.T) {
	directory := func(name string) *part.Name {
		return &part.Name{Name: part.Bytes(name), Own: &part.Record{Type: bep.Directory, Sequence: 1}}
	}
	disks := diskHead("linux")
	disks.Folders[0].Ignores.Lines = []string{"!/a/b/kept", "a", "c", "d"}
	stood := func(name string) *part.Name {
		return &part.Name{Name: part.Bytes(name), Disk: &part.Node{Type: bep.Directory}}
	}
	names := joined(t, giving(wireHead(), directory("a"), directory("c")), giving(disks, stood("a"), stood("d")))
	if a, c := names["a"], names["c"]; a.IsIgnored() || a.Disk == nil || !c.IsIgnored() || names["d"] != nil {
		t.Errorf("a: %+v, c: %+v, d: %+v", a, c, names["d"])
	}
	if hidden := names[string(part.HiddenName("docs", "d").Bytes())]; hidden == nil || !hidden.IsIgnored() {
		t.Errorf("what no index has: %+v", hidden)
	}
}

// A half that is cut off, or goes on, is told.
func TestLinesThatDontFit(t *testing.T) {
	for what, change := range map[string]func(wire, disks *given){
		"the disks end early": func(_, disks *given) { disks.lines = disks.lines[:1] },
		"the wire ends early": func(wire, _ *given) { wire.lines = wire.lines[:1] },
		"the disks go on": func(_, disks *given) {
			disks.lines = append(disks.lines, part.Line{Begin: &part.Begin{Folder: "docs"}})
		},
		"another begin": func(wire, _ *given) { wire.lines = append(wire.lines[:1:1], wire.lines...) },
	} {
		wire, disks := giving(wireHead()), giving(diskHead("linux"))
		change(wire, disks)
		stream, err := Join(wire, disks)
		for err == nil {
			_, err = stream.Next()
		}
		if err == io.EOF || what == "the disks go on" && err.Error() != "its half of the disks goes on where that over the wire ends: <nil>, EOF" {
			t.Errorf("%s: %v", what, err)
		}
	}
}

// Which blocks of a file differ is told by the observer alone, and only of a file with other bytes than recorded.
func TestBlocksThatDiffer(t *testing.T) {
	content := func(hash byte) part.Content {
		return part.Content{Size: 1, BlockSize: bep.MinBlockSize, Hash: part.Hash{hash}}
	}
	differ := &part.Differ{Count: 1, Ranges: [][2]int64{{0, 0}}}
	wire := func(name string) *part.Name {
		recorded := content(1)
		return &part.Name{Name: part.Bytes(name), Own: &part.Record{ModifiedS: 5, Sequence: 1, Content: &recorded}, Differ: differ}
	}
	disk := func(name string, hash byte) *part.Name {
		return &part.Name{Name: part.Bytes(name), Disk: &part.Node{ModifiedS: 5, Size: 1, Contents: []part.Content{content(hash)}}}
	}
	given := disk("other", 2)
	names := joined(t, giving(wireHead(), wire("other"), wire("same")), giving(diskHead("linux"), given, disk("same", 1)))
	if names["other"].Disk.Differ != differ || names["same"].Disk.Differ != nil || given.Disk.Differ != nil {
		t.Errorf("%+v, %+v", names["other"].Disk, names["same"].Disk)
	}
}
