package halves

import (
	"fmt"
	"io"
	"reflect"
	"strings"
	"testing"

	"syncthing-audit/bep"
	"syncthing-audit/part"
)

// contentOf gives a content in blocks of a size.
func contentOf(size, block int64) part.Content {
	return part.Content{Size: size, BlockSize: block, Hash: part.Hash{byte(block / bep.MinBlockSize)}}
}

// Blocks that the walk cut otherwise than the record can't be compared, unless neither has more than one: that is told, with how to walk anew. Where one of several cuts is
// the record's, that comes first. What was given stays as it is.
func TestHowAFileIsCut(t *testing.T) {
	const small = int64(bep.MinBlockSize)
	for _, size := range []int64{1, small - 1, small, small + 1, 2 * small, 2*small + 1, 3 * small, 4 * small, 4*small + 1} {
		for _, recorded := range []int64{small, 2 * small, 4 * small} {
			for _, cuts := range [][]int64{{small}, {2 * small}, {4 * small}, {small, 2 * small}, {4 * small, small, 2 * small}} {
				content := contentOf(size, recorded)
				node := &part.Node{ModifiedS: 5, Size: size}
				isCutSo := false
				for _, block := range cuts {
					node.Contents = append(node.Contents, contentOf(size, block))
					isCutSo = isCutSo || block == recorded
				}
				given := append([]part.Content{}, node.Contents...)
				names := joined(t, giving(wireHead(), &part.Name{Name: "a", Own: &part.Record{ModifiedS: 5, Sequence: 1, Content: &content}}),
					giving(diskHead("linux"), &part.Name{Name: "a", Disk: node}))
				isKnown := isCutSo || part.CountOfBlocks(size, recorded) == 1 && part.CountOfBlocks(size, cuts[0]) == 1
				a := names["a"]
				if (len(a.Out) == 0) != isKnown || !isKnown && !strings.Contains(a.Out[0].Why, fmt.Sprintf("--block-size %d", recorded)) {
					t.Errorf("%d bytes, recorded in blocks of %d, cut into %d: %+v", size, recorded, cuts, a.Out)
				}
				if isCutSo && (a.Disk.Contents[0].BlockSize != recorded || len(a.Disk.Contents) != len(cuts)) || !reflect.DeepEqual(node.Contents, given) {
					t.Errorf("%d bytes, recorded in blocks of %d, cut into %d: %+v of %+v", size, recorded, cuts, a.Disk.Contents, node.Contents)
				}
			}
		}
	}
}

// A file where a directory is recorded, or the other way round, waits for a scan, and nothing of its blocks is asked.
func TestAFileWhereADirectoryIsRecorded(t *testing.T) {
	content := contentOf(1, bep.MinBlockSize)
	file := &part.Node{ModifiedS: 5, Size: 1, Contents: []part.Content{content}}
	names := joined(t, giving(wireHead(), &part.Name{Name: "a", Own: &part.Record{Type: bep.Directory, Sequence: 1}}, &part.Name{Name: "b", Own: &part.Record{Content: &content, Sequence: 1}}),
		giving(diskHead("linux"), &part.Name{Name: "a", Disk: file}, &part.Name{Name: "b", Disk: &part.Node{Type: bep.Directory}}))
	for _, name := range []string{"a", "b"} {
		if found := names[name]; found.Waits == nil || len(found.Out) != 0 {
			t.Errorf("%s: %+v", name, found)
		}
	}
}

// What the observer left out of a name is told with what the walk did, and of one that moved nothing else is.
func TestWhatIsLeftOutOfBoth(t *testing.T) {
	odd, special := part.LeftOut{Kind: part.OddRecord, Why: "odd"}, part.LeftOut{Kind: part.Special, Why: "a pipe"}
	record := &part.Record{Type: bep.Directory, Sequence: 1}
	names := joined(t, giving(wireHead(), &part.Name{Name: "a", Out: []part.LeftOut{odd}}, &part.Name{Name: "b", Own: record, Moved: []string{part.MovedRecord}}, &part.Name{Name: "c", Own: record}),
		giving(diskHead("linux"), &part.Name{Name: "a", Out: []part.LeftOut{special}}, &part.Name{Name: "b", Disk: &part.Node{Type: bep.Directory}}, &part.Name{Name: "c", Moved: []string{part.MovedDisk}}))
	if a := names["a"]; !reflect.DeepEqual(a.Out, []part.LeftOut{odd, special}) {
		t.Errorf("%+v", a)
	}
	for name, why := range map[string]string{"b": part.MovedRecord, "c": part.MovedDisk} {
		if found := names[name]; !reflect.DeepEqual(found, &part.Name{Name: part.Bytes(name), Moved: []string{why}}) {
			t.Errorf("%+v", found)
		}
	}
}

// A directory that is ignored by now goes with the next scan, unless something that isn't ignored stands below it, recorded and on the disk.
func TestDirectoriesThatAreToBeIgnored(t *testing.T) {
	for _, row := range []struct {
		isRecorded, isDeleted, isOnDisk bool
		toIgnore                        int64
	}{{true, false, true, 0}, {true, true, true, 1}, {true, false, false, 1}, {false, false, true, 1}, {false, false, false, 1}} {
		half := diskHead("linux")
		half.Folders[0].Ignores.Lines = []string{"!/a/kept", "/a"}
		wire := []*part.Name{{Name: "a", Own: &part.Record{Type: bep.Directory, Sequence: 1}}}
		disks := []*part.Name{{Name: "a", Disk: &part.Node{Type: bep.Directory}}}
		if row.isRecorded {
			wire = append(wire, &part.Name{Name: "a/kept", Own: &part.Record{Type: bep.Directory, Sequence: 1, Deleted: row.isDeleted}})
		}
		if row.isOnDisk {
			disks = append(disks, &part.Name{Name: "a/kept", Disk: &part.Node{Type: bep.Directory}})
		}
		stream, err := Join(giving(wireHead(), wire...), giving(half, disks...))
		for err == nil {
			var line part.Line
			if line, err = stream.Next(); line.End != nil && line.End.ToIgnore != row.toIgnore {
				t.Errorf("%+v: %d directories", row, line.End.ToIgnore)
			}
		}
		if err != io.EOF {
			t.Error(err)
		}
	}
}

// The end of a folder says of its index what the observer was told, and of its disks what the walk found.
func TestTheEndOfBothHalves(t *testing.T) {
	wire, disks := giving(wireHead()), giving(diskHead("linux"))
	wire.lines[1].End.Max, wire.lines[1].End.Bytes, wire.lines[1].End.Temporary = 9, 1, &part.Count{Names: 1}
	disks.lines[1].End.Max, disks.lines[1].End.Bytes, disks.lines[1].End.Temporary, disks.lines[1].End.Linked = 0, 2, &part.Count{Names: 2}, &part.Count{Names: 3}
	holding, deletable := &part.Holding{Names: []part.Bytes{"a"}}, &part.Deletable{In: []part.DeletableIn{{Directory: "b", Count: part.Count{Names: 1}}}}
	disks.lines[1].End.Holding, disks.lines[1].End.Deletable = holding, deletable
	due := &part.End{Folder: "docs", Last: true, Max: 9, Bytes: 2, Temporary: &part.Count{Names: 2}, Linked: &part.Count{Names: 3}, Holding: holding, Deletable: deletable}
	stream, err := Join(wire, disks)
	for err == nil {
		var line part.Line
		if line, err = stream.Next(); line.End != nil && !reflect.DeepEqual(line.End, due) {
			t.Errorf("%+v", line.End)
		}
	}
	if err != io.EOF {
		t.Error(err)
	}
}

// The head of both has what the walk saw of the folders, and says what is still unseen; neither half's own head changes.
func TestTheHeadOfBothHalves(t *testing.T) {
	wire, half := wireHead(), diskHead("windows")
	stream, err := Join(giving(wire), giving(half))
	if err != nil {
		t.Fatal(err)
	}
	if !reflect.DeepEqual(wire, wireHead()) || !reflect.DeepEqual(half, diskHead("windows")) {
		t.Errorf("%+v, %+v", wire, half)
	}
	head := stream.Head()
	if folder := head.Folders[0]; folder.Path != "/docs" || folder.Directory != "here" || folder.Ignores == nil || folder.Max != 9 {
		t.Errorf("%+v", folder)
	}
	if unseen := (&part.Head{Half: half.Half, Folders: wire.Folders}).StillUnseen(); !reflect.DeepEqual(head.Wire.Unseen, unseen) || head.Half != half.Half || head.Wire.Half != walk {
		t.Errorf("%q, not %q", head.Wire.Unseen, unseen)
	}
}
