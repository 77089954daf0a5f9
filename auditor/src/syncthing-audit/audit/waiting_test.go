package audit

import (
	"testing"

	"golang.org/x/exp/slices"
	"syncthing-audit/finding"
	"syncthing-audit/join"
	"syncthing-audit/part"
)

// Only a device whose own record and disk have the bytes that are recorded is one from which they can be copied.
func TestFromWhereWhatIsRecordedCanBeCopied(t *testing.T) {
	file := func(change func(*part.Name)) *part.Name {
		content := part.Content{Size: 300000, BlockSize: 131072, Hash: part.Hash{1}}
		made := &part.Name{Own: &part.Record{ModifiedS: 7, Content: &content}, Disk: &part.Node{ModifiedS: 7, Size: 300000, Contents: []part.Content{content}}}
		change(made)
		return made
	}
	waits := &part.Name{Moved: []string{part.MovedUnscanned}, Waits: file(func(one *part.Name) { one.Disk = nil })}
	row := &join.Row{Name: "a", At: []*part.Name{waits,
		file(func(*part.Name) {}),
		file(func(one *part.Name) { one.Disk.Contents[0].Hash = part.Hash{9} }),
		file(func(one *part.Name) { one.Disk = nil }),
		file(func(one *part.Name) { one.Own.Deleted = true }),
		file(func(one *part.Name) { one.Disk.Lost = "input/output error" }),
		{Moved: []string{part.MovedDisk}},
		nil,
	}}
	next := &names{found: &finding.Folder{}}
	for number := range row.At {
		next.found.Members = append(next.found.Members, join.Member{Device: &join.Device{Head: &part.Head{Device: idOf(byte(number))}}})
	}
	made := next.movedOf(row, 0)
	if !slices.Equal(made.Have, []string{idOf(1)}) || made.Waits != "missing" || made.Recorded == nil || made.Recorded.Size != 300000 || made.Found != nil {
		t.Errorf("%+v", made)
	}
	if other := next.movedOf(row, 6); other.Waits != "" || other.Recorded != nil || len(other.Have) > 0 {
		t.Errorf("%+v", other)
	}
}

// What waits is told by what stands on the disk, be it in no record; where no details were kept nothing is told of it.
func TestWhatStandsOnTheDiskOfWhatWaits(t *testing.T) {
	for _, waits := range []*part.Name{{Name: "a", Disk: &part.Node{Size: 5}}, nil} {
		made := namesOf().movedOf(&join.Row{Name: "a", At: []*part.Name{{Moved: []string{part.MovedUnscanned}, Waits: waits}}}, 0)
		if made.Recorded != nil || (made.Found == nil) != (waits == nil) || waits != nil && (made.Found.Size != 5 || made.Waits != finding.WaitsNew) {
			t.Errorf("%+v", made)
		}
	}
}
