package read

import (
	"errors"
	"io"
	"reflect"
	"sort"
	"strings"
	"testing"

	"syncthing-audit/forecast"
	"syncthing-audit/part"
)

// stream is a part in memory, which may fail at its end.
type stream struct {
	head  *part.Head
	lines []part.Line
	err   error
}

func (s *stream) Head() *part.Head { return s.head }

func (s *stream) Next() (part.Line, error) {
	if len(s.lines) == 0 {
		return part.Line{}, s.err
	}
	line := s.lines[0]
	s.lines = s.lines[1:]
	return line, nil
}

// partsOf gives the parts of two devices that share the folder docs, with a name at rest that only the first one has an index of, and a name of another folder.
func partsOf() []*stream {
	var parts []*stream
	for _, member := range folderOf(2).Members {
		row := calm("d/a", nil).At[0]
		row.Views[0].View = 0
		lines := []part.Line{{Begin: &part.Begin{Folder: "music"}}, {Name: &part.Name{Name: "b", Own: told(nil)}}, {End: &part.End{Folder: "music"}},
			{Begin: &part.Begin{Folder: "docs"}}, {Name: row}, {End: &part.End{Folder: "docs", Last: true}}, {Begin: &part.Begin{Folder: "pics"}}, {Name: &part.Name{Name: "c", Own: told(nil)}}}
		parts = append(parts, &stream{member.Head, lines, io.EOF})
	}
	return parts
}

func streams(parts []*stream) []part.Stream {
	var all []part.Stream
	for _, each := range parts {
		all = append(all, each)
	}
	return all
}

// A world has the devices in the order of their parts, and the names of one folder.
func TestAWorldOfParts(t *testing.T) {
	parts := partsOf()
	parts[1].head.Folders[0].Kind, parts[1].head.Folders[0].Options = "receive-only", nil
	world, err := World(streams(parts), "docs")
	if err != nil || len(world.Names) != 1 || len(world.Devices) != 2 {
		t.Fatalf("%+v, %v", world, err)
	}
	for place, kind := range []forecast.Kind{forecast.SendReceive, forecast.ReceiveOnly} {
		if device := world.Devices[place]; device.ID != id(place) || device.Kind != kind || device.MaxConflicts != 10 || device.Release != forecast.V1_29 {
			t.Errorf("%+v", device)
		}
	}
	content := forecast.Content{Size: 5, Hash: told(nil).Content.Hash.String()}
	record := &forecast.Record{Type: forecast.File, Version: []forecast.Counter{{Device: 1, Value: 1}}, Time: 100e9, Content: content, Mode: forecast.NoMode}
	node := &forecast.Node{Type: forecast.File, Time: 100e9, Content: content}
	due := forecast.Name{Name: "d/a", Own: []*forecast.Record{record, record}, Views: [][]*forecast.Record{{nil, record}, {record, nil}}, Disk: []*forecast.Node{node, node}}
	if !reflect.DeepEqual(world.Names[0], due) {
		t.Errorf("%+v", world.Names[0])
	}
}

// A folder that a part lacks, or of a kind that the model doesn't know, and a part that fails, make no world.
func TestPartsOfNoWorld(t *testing.T) {
	for why, change := range map[string]func(parts []*stream){
		`has no folder "docs"`:           func(parts []*stream) { parts[1].head.Folders[0].ID = "other" },
		`no folder of kind "send-odd"`:   func(parts []*stream) { parts[0].head.Folders[0].Kind = "send-odd" },
		io.ErrUnexpectedEOF.Error():      func(parts []*stream) { parts[1].err = io.ErrUnexpectedEOF },
		errors.New("it is lost").Error(): func(parts []*stream) { parts[0].err = errors.New("it is lost") },
	} {
		parts := partsOf()
		change(parts)
		if world, err := World(streams(parts), "docs"); err == nil || !strings.Contains(err.Error(), why) || world.Names != nil || world.Devices != nil {
			t.Errorf("%s: %+v, %v", why, world, err)
		}
	}
}

// Bytes that are cut in two ways on one disk are the same everywhere, by whichever part that is told.
func TestBytesThatAreCutInTwoWays(t *testing.T) {
	other := part.Content{Size: 5, BlockSize: 1 << 18, Hash: part.Hash{2}}
	for place := 0; place < 2; place++ {
		parts := partsOf()
		disk := parts[place].lines[4].Name.Disk
		disk.Contents = append(disk.Contents, other)
		parts[1-place].lines[4].Name.Own.Content = &other
		world, err := World(streams(parts), "docs")
		if err != nil {
			t.Fatal(err)
		}
		name, hashes := world.Names[0], []string{}
		for at := range name.Own {
			hashes = append(hashes, name.Own[at].Content.Hash, name.Disk[at].Content.Hash)
		}
		sort.Strings(hashes)
		if hashes[0] != hashes[3] {
			t.Errorf("%q", hashes)
		}
	}
}

// Bytes are the same also where one part says so of two, and another part of one of these and a third, or of the same two in another order.
func TestBytesThatAreCutInManyWays(t *testing.T) {
	content := func(hash byte) part.Content { return part.Content{Size: 5, BlockSize: 1 << 18, Hash: part.Hash{hash}} }
	for place, cuts := range [][2][]part.Content{{{content(1), content(2)}, {content(3), content(2)}}, {{content(1), content(2)}, {content(2), content(1)}}, {{content(1), content(2), content(3)}, {content(3)}}} {
		parts := partsOf()
		for at := range parts {
			parts[at].lines[4].Name.Disk.Contents = cuts[at]
		}
		world, err := World(streams(parts), "docs")
		if err != nil {
			t.Fatal(err)
		}
		if disk := world.Names[0].Disk; disk[0].Content != disk[1].Content {
			t.Errorf("%d: %+v and %+v", place, disk[0].Content, disk[1].Content)
		}
	}
}
