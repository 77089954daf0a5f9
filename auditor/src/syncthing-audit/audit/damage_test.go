package audit

import (
	"fmt"
	"testing"

	"syncthing-audit/finding"
	"syncthing-audit/join"
	"syncthing-audit/part"
)

// What a disk fails to give is a fault, and never left out on request alone; what a directory's names are isn't known then.
func TestWhatADiskFailsToGive(t *testing.T) {
	damaged := part.LeftOut{Kind: part.Damaged, Why: "input/output error", Below: true}
	for _, one := range []struct {
		why      string
		row      *join.Row
		leaveOut string
		refused  int
		told     string
		first    string
	}{
		{"a directory", rowOf(&part.Name{Out: []part.LeftOut{damaged}}, nil), "", 0, "[{0 input/output error false}]", "&{StoreDiffers d/ 1}"},
		{"a directory on both", rowOf(&part.Name{Out: []part.LeftOut{damaged}}, &part.Name{Out: []part.LeftOut{damaged}}), "", 0,
			"[{0 input/output error false} {1 input/output error false}]", "&{StoreDiffers d/ 1}"},
		{"what one of them ignores", rowOf(&part.Name{Out: []part.LeftOut{damaged, {Kind: part.Ignored}}}, &part.Name{Own: record}), "", 1, "", "<nil>"},
		{"the same, left out", rowOf(&part.Name{Out: []part.LeftOut{damaged, {Kind: part.Ignored}}}, &part.Name{Own: record}), part.Ignored, 0, "", "<nil>"},
	} {
		next := namesOf(one.leaveOut)
		next.found.Members[0].Number, next.found.Members[1].Number = 1, 2
		one.row.Name = "d/"
		if err := next.row(one.row); err != nil {
			t.Fatal(err)
		}
		told := ""
		next.found.Damaged.Each(func(damaged *finding.Damaged) { told += fmt.Sprint(damaged.At) })
		if len(next.answer.Refusals) != one.refused || told != one.told || fmt.Sprint(next.found.FirstFailure()) != one.first {
			t.Errorf("%s: %d refused, %s, %v", one.why, len(next.answer.Refusals), told, next.found.FirstFailure())
		}
	}
}

// A file that a disk fails to give stands in a document, unless a device's part leaves it out.
func TestAFileThatADiskFailsToGive(t *testing.T) {
	for _, row := range []struct {
		other  *part.Name
		isFile bool
	}{{with(), true}, {nil, true}, {with(out(part.Unreadable)), false}} {
		next, told := namesOf(), []finding.Damaged{}
		next.addDamaged(rowOf(with(lost), row.other))
		next.found.Damaged.Each(func(damaged *finding.Damaged) { told = append(told, *damaged) })
		if len(told) != 1 || told[0].IsFile != row.isFile || fmt.Sprint(told[0].At) != "[{0 it is lost false}]" {
			t.Errorf("%+v: %+v", row, told)
		}
	}
}
