package audit

import (
	"reflect"
	"testing"

	"syncthing-audit/finding"
	"syncthing-audit/join"
	"syncthing-audit/part"
)

// own gives what a device has of a name that it records at this version.
func own(change func(*part.Record), version ...[2]uint64) *part.Name {
	record := &part.Record{ModifiedS: 10, ModifiedNs: 5, ModifiedBy: 2, Version: version, Content: &part.Content{Size: 1, BlockSize: 131072}}
	change(record)
	return &part.Name{Own: record}
}

func same(*part.Record) {}

// folderOfTwo gives a folder that two devices share.
func folderOfTwo() *join.Folder {
	heads := []*part.Head{{Device: "one"}, {Device: "two"}}
	made := &join.Folder{ID: "docs"}
	for place, head := range heads {
		about := &part.Folder{ID: "docs", Views: []part.View{{Device: heads[1-place].Device}}}
		made.Members = append(made.Members, join.Member{Device: &join.Device{Head: head, Number: uint64(place + 1)}, About: about})
	}
	return made
}

// What keeps a folder from being firm is told by the device; an invalid record in a view doesn't count, nor does what is older.
func TestWhatIsLoose(t *testing.T) {
	folder := folderOfTwo()
	seen := func(invalid bool, version ...[2]uint64) []part.Seen {
		return []part.Seen{{Record: &part.Record{Version: version, Invalid: invalid}}}
	}
	winner, older, concurrent := [2]uint64{1, 2}, [2]uint64{1, 1}, [2]uint64{2, 1}
	for _, one := range []struct {
		why      string
		versions [2][2]uint64
		views    []part.Seen
		at       []finding.LooseAt
	}{
		{"one version", [2][2]uint64{winner, winner}, nil, nil},
		{"an older view", [2][2]uint64{winner, winner}, seen(false, older), nil},
		{"a concurrent view", [2][2]uint64{winner, winner}, seen(false, concurrent), []finding.LooseAt{{Member: 1, Reason: finding.ViewNotBelow}}},
		{"an invalid one", [2][2]uint64{winner, winner}, seen(true, concurrent), nil},
		{"an older record", [2][2]uint64{winner, older}, nil, []finding.LooseAt{{Member: 1, Reason: finding.VersionDiffers, IsOlder: true}}},
		{"a concurrent record", [2][2]uint64{winner, concurrent}, nil, []finding.LooseAt{{Member: 1, Reason: finding.VersionDiffers}}},
	} {
		made := &names{folder: folder, found: &finding.Folder{}}
		row := &join.Row{Name: "a", At: []*part.Name{own(same, one.versions[0]), own(same, one.versions[1])}}
		row.At[1].Views = one.views
		made.addLoose(row)
		var at []finding.LooseAt
		made.found.Loose.Each(func(one *finding.Loose) { at = append(at, one.At...) })
		if !reflect.DeepEqual(at, one.at) {
			t.Errorf("%s: %+v", one.why, at)
		}
	}
	other := own(func(one *part.Record) { one.Content = &part.Content{Size: 2, BlockSize: 131072} }, concurrent)
	made := &names{folder: folder, found: &finding.Folder{}}
	made.addLoose(&join.Row{Name: "a", At: []*part.Name{own(same, winner), other}})
	if made.found.Loose.Len() > 0 {
		t.Error("a name that isn't in step is taken for one that is")
	}
}
