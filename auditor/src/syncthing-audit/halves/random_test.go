package halves

import (
	"fmt"
	"io"
	"math/rand"
	"reflect"
	"sort"
	"strings"
	"testing"

	"syncthing-audit/bep"
	"syncthing-audit/part"
	"syncthing-audit/shell"
)

// drawn is a name of a random device: what its index and its disk have, and whether .stignore ignores it.
type drawn struct {
	name                 string
	hasRecord, isOnDisk  bool
	isIgnored, isAFolder bool
}

// record gives what the index has.
func (d drawn) record() *part.Record {
	made := &part.Record{Sequence: 1, ModifiedS: 5}
	if d.isAFolder {
		made.Type = bep.Directory
	} else {
		made.Content = &part.Content{Size: 1, BlockSize: bep.MinBlockSize}
	}
	return made
}

// node gives what stands on the disk.
func (d drawn) node() *part.Node {
	if d.isAFolder {
		return &part.Node{Type: bep.Directory, ModifiedS: 5}
	}
	return &part.Node{Size: 1, ModifiedS: 5, Contents: []part.Content{{Size: 1, BlockSize: bep.MinBlockSize}}}
}

// linesOf gives both halves of such a device. The walk knows no index: it tells an ignored name by its hash, or an ignored directory by its name where that
// may be taken in.
func linesOf(all []drawn, takesIgnored bool) (wire, disks []*part.Name) {
	var hashes []*part.Name
	for _, one := range all {
		if one.hasRecord {
			wire = append(wire, &part.Name{Name: part.Bytes(one.name), Own: one.record()})
		}
		switch {
		case !one.isOnDisk:
		case one.isIgnored && !(takesIgnored && one.isAFolder):
			hashes = append(hashes, &part.Name{Name: part.HiddenName("docs", one.name).Bytes(), Disk: &part.Node{Size: 1}, Out: []part.LeftOut{{Kind: part.Ignored, Why: part.WhyIgnored}}})
		default:
			disks = append(disks, &part.Name{Name: part.Bytes(one.name), Disk: one.node()})
		}
	}
	sort.Slice(hashes, func(a, b int) bool { return hashes[a].Name < hashes[b].Name })
	return wire, append(disks, hashes...)
}

// due says under which name, and how, one is told: nothing where it isn't.
func (d drawn) due(takesIgnored bool) (name, how string) {
	isTaken := takesIgnored && d.isAFolder && d.hasRecord && d.isOnDisk
	switch {
	case !d.hasRecord && !d.isOnDisk:
		return "", ""
	case d.isIgnored && !d.hasRecord:
		return string(part.HiddenName("docs", d.name).Bytes()), "ignored"
	case d.isIgnored && !isTaken:
		return d.name, "ignored"
	case d.hasRecord != d.isOnDisk:
		return d.name, "waits"
	}
	return d.name, "as recorded"
}

// how says the same of a name that is told.
func how(name *part.Name) string {
	switch {
	case name.IsIgnored() && len(name.Out) == 1:
		return "ignored"
	case name.Waits != nil && reflect.DeepEqual(name.Moved, []string{part.MovedUnscanned}):
		return "waits"
	case len(name.Out) == 0 && len(name.Moved) == 0 && name.Own != nil && name.Disk != nil:
		return "as recorded"
	}
	return fmt.Sprintf("%+v", name)
}

// Whatever both halves have, each name is told once, in the order of a part, and as a plain reading of both says: an ignored one under its name where the index has
// it, and by its hash else.
func TestRandomHalves(t *testing.T) {
	for seed := int64(0); seed < 400; seed++ {
		random, takesIgnored := rand.New(rand.NewSource(seed)), seed%2 == 0
		var all []drawn
		for number := 0; number < 12; number++ {
			one := drawn{name: fmt.Sprintf("%02d", number), hasRecord: random.Intn(2) == 0, isOnDisk: random.Intn(2) == 0, isIgnored: random.Intn(2) == 0, isAFolder: random.Intn(2) == 0}
			if one.isIgnored {
				one.name += ".tmp"
			}
			all = append(all, one)
		}
		half := diskHead("linux")
		if takesIgnored {
			half.Folders[0].Ignores.Lines = []string{"!/x/y/kept", "*.tmp"}
		}
		due := map[string]string{}
		toIgnore := int64(0)
		for _, one := range all {
			if name, how := one.due(takesIgnored); name != "" {
				due[name] = how
			}
			if takesIgnored && one.isIgnored && one.isAFolder && one.hasRecord && one.isOnDisk {
				toIgnore++
			}
		}
		wire, disks := linesOf(all, takesIgnored)
		stream, err := Join(giving(wireHead(), wire...), giving(half, disks...))
		if err != nil {
			t.Fatal(err)
		}
		checkTold(t, seed, stream, due, toIgnore)
	}
}

// checkTold compares what a stream tells with what is due.
func checkTold(t *testing.T, seed int64, stream *Stream, due map[string]string, toIgnore int64) {
	told, last := map[string]string{}, ""
	for {
		line, err := stream.Next()
		if err == io.EOF {
			break
		}
		if err != nil {
			t.Fatalf("seed %d: %v", seed, err)
		}
		if line.End != nil && (line.End.Names != int64(len(told)) || line.End.ToIgnore != toIgnore) {
			t.Errorf("seed %d: %+v, and %d names are told, %d are to be ignored", seed, line.End, len(told), toIgnore)
		}
		if line.Name == nil {
			continue
		}
		name := string(line.Name.Name)
		if isBehind := shell.IsBehindNames(name); name <= last && (!isBehind || shell.IsBehindNames(last)) {
			t.Errorf("seed %d: %q behind %q", seed, name, last)
		}
		told[name], last = how(line.Name), name
	}
	if !reflect.DeepEqual(told, due) {
		for name := range told {
			if told[name] != due[name] {
				t.Errorf("seed %d: %q is told as %s, not %s", seed, name, told[name], due[name])
			}
		}
		t.Errorf("seed %d: %d names, not %d", seed, len(told), len(due))
	}
}

// Names that another device's index has are asked for by whoever joins the devices: what .stignore ignores of them isn't told by a hash any more.
func TestNamesOfOtherDevices(t *testing.T) {
	hashed := func(name string) *part.Name {
		return &part.Name{Name: part.HiddenName("docs", name).Bytes(), Disk: &part.Node{}, Out: []part.LeftOut{{Kind: part.Ignored, Why: part.WhyIgnored}}}
	}
	hidden := []*part.Name{hashed("a.tmp"), hashed("b.tmp")}
	sort.Slice(hidden, func(a, b int) bool { return hidden[a].Name < hidden[b].Name })
	stream, err := Join(giving(wireHead()), giving(diskHead("linux"), hidden...))
	if err != nil {
		t.Fatal(err)
	}
	if stream.Head().Device != idOf(1) || stream.Head().Half == nil || stream.Head().Folders[0].Path != "/docs" {
		t.Errorf("%+v", stream.Head())
	}
	if _, err := stream.Next(); err != nil {
		t.Fatal(err)
	}
	for name, is := range map[string]bool{"a.tmp": true, "a": false} {
		if stream.IsIgnored(name) != is {
			t.Errorf("%s: %v", name, !is)
		}
	}
	line, err := stream.Next()
	if err != nil || line.Name == nil || line.Name.Name != part.HiddenName("docs", "b.tmp").Bytes() {
		t.Errorf("%+v, %v", line.Name, err)
	}
	if line, err = stream.Next(); err != nil || line.End == nil || line.End.Names != 1 {
		t.Errorf("%+v, %v", line, err)
	}
	unknown := diskHead("linux")
	unknown.Folders[0].Ignores = &part.Ignores{Unknown: "odd"}
	if stream, err = Join(giving(wireHead()), giving(unknown)); err != nil {
		t.Fatal(err)
	}
	if _, err := stream.Next(); err != nil || stream.IsIgnored("a.tmp") {
		t.Error("what isn't known is ignored")
	}
}

// A directory that the walk told by its name, and that is ignored, is told neither by that nor by its hash once another device's index has it.
func TestADirectoryOfAnotherDevice(t *testing.T) {
	half := diskHead("linux")
	half.Folders[0].Ignores.Lines = []string{"!/x/y/kept", "*.tmp"}
	folder := func(name string) *part.Name {
		return &part.Name{Name: part.Bytes(name), Disk: &part.Node{Type: bep.Directory}}
	}
	hash := string(part.HiddenName("docs", "c.tmp").Bytes())
	for _, other := range []string{"", "b.tmp"} {
		names, due := []*part.Name{folder("a.tmp")}, []string{"z", hash}
		if other != "" {
			names, due = append(names, folder(other)), append(due, string(part.HiddenName("docs", other).Bytes()))
		}
		sort.Strings(due[1:])
		names = append(names, &part.Name{Name: "z", Disk: drawn{}.node()}, &part.Name{Name: part.Bytes(hash), Disk: &part.Node{}, Out: []part.LeftOut{{Kind: part.Ignored}}})
		stream, err := Join(giving(wireHead(), &part.Name{Name: "z", Own: drawn{}.record()}), giving(half, names...))
		var told []string
		for err == nil {
			var line part.Line
			if line, err = stream.Next(); err == nil && line.Name != nil {
				told = append(told, string(line.Name.Name))
				stream.IsIgnored("a.tmp")
			}
		}
		if err != io.EOF || !reflect.DeepEqual(told, due) {
			t.Errorf("%q, %v", told, err)
		}
	}
}

// What else is wrong with the record of an ignored name is told beside that it is ignored, and how many bytes it has: those on the disk, or else the recorded ones.
func TestWhyAnIgnoredNameIsLeftOut(t *testing.T) {
	odd, unknown := part.LeftOut{Kind: part.OddRecord, Why: "odd"}, part.LeftOut{Kind: part.Unknown, Why: "x"}
	record := &part.Record{Content: &part.Content{Size: 7}}
	for _, one := range []struct {
		name  part.Name
		kinds string
		bytes int64
	}{
		{part.Name{}, part.Ignored, 0}, {part.Name{Own: &part.Record{}}, part.Ignored, 0}, {part.Name{Own: record}, part.Ignored, 7},
		{part.Name{Own: record, Disk: &part.Node{Size: 3}}, part.Ignored, 3},
		{part.Name{Out: []part.LeftOut{unknown, odd, {Kind: part.Ignored}}}, part.OddRecord + " " + part.Ignored, 0},
	} {
		kinds, left := []string{}, ignored(&one.name)
		for _, out := range left {
			kinds = append(kinds, out.Kind)
		}
		if strings.Join(kinds, " ") != one.kinds || left[len(left)-1] != (part.LeftOut{Kind: part.Ignored, Why: part.WhyIgnored, Bytes: one.bytes}) {
			t.Errorf("%+v: %+v", one.name, left)
		}
	}
}

// What config.xml says there is taken where it was read, and refused where the device itself told otherwise.
func TestWhatIsConfiguredThere(t *testing.T) {
	for kind, told := range map[string]string{"": "", "receive-only": "", "send-only": "is the config.xml that was read Syncthing's own?"} {
		wire, half := wireHead(), diskHead("linux")
		wire.Folders[0].Kind = "receive-only"
		half.Folders[0].Kind = kind
		half.Folders[0].TimeWindow = 2
		wire.Folders[0].Label = "My docs"
		stream, err := Join(giving(wire), giving(half))
		if (err == nil) != (told == "") || err != nil && (!strings.HasSuffix(err.Error(), told) || !strings.HasPrefix(err.Error(), "folder docs (My docs): ")) {
			t.Errorf("%q: %v", kind, err)
		}
		if err == nil && (stream.Head().Folders[0].TimeWindow == 2) != (kind != "") {
			t.Errorf("%q: %+v", kind, stream.Head().Folders[0])
		}
	}
}
