package summary

import (
	"fmt"
	"testing"

	"syncthing-audit/finding"
	"syncthing-audit/part"
)

// deleted is a name that was deleted.
func deleted() *part.Name {
	return &part.Name{Own: &part.Record{Deleted: true, ModifiedS: later, Version: [][2]uint64{{1, 2}}}}
}

// causes are what both devices have of a name, which reasons fail on the second one, and what is wrong there.
var causes = []struct {
	why            string
	laptop, server *part.Name
	reasons        []string
	causes         []Cause
}{
	{"bytes alone differ", file(1, 1), with(file(1, 1), rotten), []string{"StoreDiffers 2"}, []Cause{OtherBytes}},
	{"bytes and time differ", file(1, 1), with(with(file(1, 1), rotten), func(at *part.Name) { at.Disk.ModifiedS = later }),
		[]string{"StoreDiffers 2", "StoreUnclean 2"}, []Cause{Changed}},
	{"the time alone differs", file(1, 1), with(file(1, 1), func(at *part.Name) { at.Disk.ModifiedNs = 1 }),
		[]string{"StoreUnclean 2"}, []Cause{OtherTime}},
	{"a directory in a file's place", file(1, 1), with(file(1, 1), func(at *part.Name) { at.Disk = &part.Node{Type: 1} }),
		[]string{"StoreDiffers 2", "StoreUnclean 2"}, []Cause{Changed}},
	{"nothing on the disk", file(1, 1), with(file(1, 1), func(at *part.Name) { at.Disk = nil }), []string{"StoreDiffers 2", "StoreUnclean 2"},
		[]Cause{Missing}},
	{"deleted, and on the disk again", deleted(), with(deleted(), func(at *part.Name) { at.Disk = &part.Node{} }),
		[]string{"StoreDiffers 2", "StoreUnclean 2"}, []Cause{Back}},
	{"an older version", file(2, 1), file(1, 2), []string{"RecordDiffers 2", "StoreDiffers 2", "ViewAhead 2"}, []Cause{Behind}},
	{"an older version with other bytes", file(2, 1), with(file(1, 2), rotten), []string{"RecordDiffers 2", "StoreDiffers 2"},
		[]Cause{Behind, OtherBytes}},
	{"none yet", file(2, 1), nil, []string{"RecordMissing 2", "StoreDiffers 2", "ViewAhead 2"}, []Cause{Behind}},
	{"none yet, and something on the disk", file(2, 1), with(file(2, 7), func(at *part.Name) { at.Own = nil }),
		[]string{"RecordMissing 2", "StoreDiffers 2", "StoreUnclean 2"}, []Cause{Behind, NotScanned}},
	{"changed on both", file(2, 1), with(file(1, 2), func(at *part.Name) { at.Own.Version = [][2]uint64{{2, 1}} }),
		[]string{"RecordDiffers 2", "StoreDiffers 2"}, []Cause{Conflicting}},
	{"the same bytes in other blocks", file(2, 1), with(file(1, 2), func(at *part.Name) {
		at.Disk.Contents = append(at.Disk.Contents, *file(2, 1).Own.Content)
	}), []string{"RecordDiffers 2", "StoreDiffers 2"}, []Cause{OtherBlocks}},
	{"none yet, and the bytes on the disk", file(2, 1), with(file(2, 1), func(at *part.Name) { at.Own = nil }),
		[]string{"RecordMissing 2", "StoreUnclean 2"}, []Cause{Behind, NotScanned}},
	{"an older version, and the newer bytes on the disk", file(2, 1), with(file(1, 2), func(at *part.Name) {
		rotten(at)
		at.Disk.ModifiedS = later
		at.Disk.Contents = append(at.Disk.Contents, *file(2, 1).Own.Content)
	}), []string{"RecordDiffers 2", "StoreUnclean 2"}, []Cause{Behind, Changed}},
	{"a change on a receive-only device", file(2, 1), with(file(1, 2), func(at *part.Name) { at.Own.Invalid = true }),
		[]string{"LocalOnly 2", "StoreDiffers 2"}, []Cause{LocalChange}},
	{"an old view", file(2, 1), file(2, 1), []string{"ViewAhead 2"}, []Cause{NewerKnown}},
	{"a reason of no device", file(2, 1), file(2, 1), []string{"NameMissing 0"}, []Cause{Differs}},
}

// What is wrong on the second device, by what both have and which reasons fail there.
func TestCauses(t *testing.T) {
	for _, row := range causes {
		answer := answerOf(2, func(folder *finding.Folder) {
			fails(folder, "a", []*part.Name{row.laptop, row.server}, row.reasons...)
		})
		files := Of(answer).Folders[0].Files
		if len(files) != 1 {
			t.Fatalf("%s: %d files", row.why, len(files))
		}
		causes := []Cause{}
		for _, fault := range files[0].Faults {
			causes = append(causes, fault.Cause)
		}
		if len(causes) != len(row.causes) || causes[0] != row.causes[0] || causes[len(causes)-1] != row.causes[len(causes)-1] {
			t.Errorf("%s: %v, not %v", row.why, causes, row.causes)
		}
		if len(files[0].Advice) == 0 {
			t.Errorf("%s: no advice", row.why)
		}
	}
}

// Where no details were kept, each name that fails is told all the same.
func TestWithoutDetails(t *testing.T) {
	for _, reason := range finding.Reasons {
		device := 2
		if finding.Place(reason) < finding.Place("RecordMissing") {
			device = 0
		}
		answer := answerOf(2, func(folder *finding.Folder) { fails(folder, "a", nil, fmt.Sprint(reason, " ", device)) })
		if files := Of(answer).Folders[0].Files; len(files) != 1 || len(files[0].Faults) != 1 {
			t.Errorf("%s: %v", reason, files)
		}
	}
}
