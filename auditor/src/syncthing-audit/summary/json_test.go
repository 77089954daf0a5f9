package summary

import (
	"encoding/json"
	"errors"
	"os/exec"
	"strings"
	"testing"
	"time"

	"syncthing-audit/choice"
	"syncthing-audit/finding"
	"syncthing-audit/part"
)

// statusOfMissing is that of the script where Python's jsonschema isn't installed.
const statusOfMissing = 77

// full gives an answer in which as much as may be is told.
func full(folder *finding.Folder) {
	fails(folder, "rotten", []*part.Name{file(1, 1), with(file(1, 1), rotten)}, "StoreDiffers 2")
	fails(folder, "alike", []*part.Name{with(file(1, 1), rotten), with(file(1, 1), rotten)}, "StoreDiffers 1", "StoreDiffers 2")
	fails(folder, "behind", []*part.Name{file(2, 1), file(1, 2)}, "RecordDiffers 2", "StoreDiffers 2", "ViewAhead 2", "ViewAhead 3")
	fails(folder, "odd", nil, "NameUnknown 0")
	fails(folder, "lost", []*part.Name{file(1, 1), with(file(1, 1), lost)}, "StoreDiffers 2")
	folder.Damaged.Add(finding.Damaged{Name: "lost", IsFile: true, At: []finding.DamagedAt{{Member: 1, Why: "read lost: input/output error"}}})
	fails(folder, "kept", nil, "StoreDiffers 1")
	for _, name := range []string{"1", "2", "3", "4", "5", "6"} {
		fails(folder, name, []*part.Name{file(1, 1), nil}, "RecordMissing 2")
	}
	unwon(folder, "new", 0, finding.Unscanned, with(file(1, 1), func(at *part.Name) { at.Own = nil }))
	folder.Permissions.Add(finding.Permissions{Name: "rotten", At: []finding.Bits{{Has: true, Index: 0o644, OnDisk: true, Disk: 0o600}, {}}})
	folder.Conflicts = []finding.Conflict{{Name: "a.sync-conflict-20261126-170000.txt", Bytes: 1}}
	folder.LeftOut = []*finding.LeftOut{{Name: "odd\xff", Names: 1, Why: []finding.Reason{{Kind: part.Large, Why: "large"}, {Device: folder.Members[0].Head.Device, Kind: part.OddName}}}}
	folder.Members[0].Head.Names = choice.Names{Prefix: "a", Slice: 3, Slices: 7}
	folder.Members[0].About.Indexed = 1001
	folder.Members[0].About.Writers = []string{"folder photos"}
	folder.Members[0].About.TimeWindow, folder.Members[0].Near = 2, 3
	folder.Members[0].Temporary = &part.Count{Names: 2, Bytes: 9}
}

// What is written is what the schema says, and what the schema says is looked at: a document of other words is none.
func TestSchema(t *testing.T) {
	answer := answerOf(2, full)
	answer.Devices[0].Runs = "v1.29.5"
	answer.Devices[0].Index, answer.Devices[0].ToRepair = &part.Index{Written: time.Unix(started, 0).UTC(), Configured: time.Unix(later, 0).UTC()}, true
	answer.LeftOut = []finding.Refusal{{Kind: part.Absent, Folder: "docs", Device: "phone", Why: "no part of it is given"}}
	answer.Devices[1].Unasked = []finding.Unasked{{ID: "music", Label: "my music", InPart: true}, {ID: "pics"}}
	answer.Devices[0].IsSilent = true
	var written strings.Builder
	for _, next := range []*finding.Answer{answer, answerOf(1, func(*finding.Folder) {}), answerOf(3, notFirm), {}} {
		if err := Of(next).WriteJSON(&written); err != nil {
			t.Fatal(err)
		}
	}
	text := written.String()
	if told, err := validate(t, text); err != nil {
		t.Fatal(told)
	}
	if told, err := validate(t, strings.Replace(text, `"other-bytes"`, `"rot"`, 1)); err == nil || !strings.Contains(told, "'rot' is not one of") {
		t.Errorf("a cause of another name is taken: %s", told)
	}
	var read map[string]interface{}
	if err := json.Unmarshal([]byte(text[:strings.Index(text, "\n")]), &read); err != nil {
		t.Fatal(err)
	}
	if read["verdict"] != NotInStep {
		t.Errorf("the verdict is %v", read["verdict"])
	}
}

// Syncthing stores no time in a record of a symlink. So JSON has none, where the disk has one, and so has the record of a deletion.
func TestNoTimeOfASymlink(t *testing.T) {
	link := func(at int64) *part.Name {
		return &part.Name{Own: &part.Record{Type: 4, Target: "a", ModifiedBy: 1, Version: [][2]uint64{{1, 1}}, Sequence: 1},
			Disk: &part.Node{Type: 4, Target: "b", ModifiedS: at}}
	}
	deleted := &part.Name{Own: &part.Record{Type: 4, ModifiedS: started, ModifiedBy: 1, Version: [][2]uint64{{1, 2}}, Sequence: 2, Deleted: true}}
	answer := answerOf(2, func(folder *finding.Folder) {
		fails(folder, "changed", []*part.Name{link(started), link(started)}, "StoreDiffers 2")
		fails(folder, "gone", []*part.Name{deleted, link(started)}, "RecordDiffers 2", "StoreDiffers 2")
	})
	var written strings.Builder
	if err := Of(answer).WriteJSON(&written); err != nil {
		t.Fatal(err)
	}
	if told, err := validate(t, written.String()); err != nil {
		t.Fatal(told)
	}
	var read struct {
		Folders []struct {
			Files []struct{ Faults []map[string]interface{} }
		}
	}
	if err := json.Unmarshal([]byte(written.String()), &read); err != nil {
		t.Fatal(err)
	}
	files := read.Folders[0].Files
	for _, row := range []struct {
		file  int
		state string
		has   bool
	}{{0, "due", false}, {0, "recorded", false}, {0, "found", true}, {1, "due", true}, {1, "recorded", false}} {
		state := files[row.file].Faults[0][row.state].(map[string]interface{})
		at, has := state["modified"]
		if has != row.has || has && !strings.HasPrefix(at.(string), "2020-09-13T") {
			t.Errorf("%+v: %v", row, state)
		}
	}
}

// validate has lines judged by the schema; without Python's jsonschema it skips the test.
func validate(t *testing.T, text string) (string, error) {
	asked := exec.Command("../../../test/audit_schema.py")
	asked.Stdin = strings.NewReader(text)
	told, err := asked.CombinedOutput()
	var ended *exec.ExitError
	if errors.As(err, &ended) && ended.ExitCode() == statusOfMissing {
		t.Skip("Python's jsonschema isn't installed")
	}
	return string(told), err
}
