package audit

import (
	"testing"

	"syncthing-audit/part"
	"syncthing-audit/rows"
)

// Parts of earlier moments are told as that where they may be, and refused where nobody agreed to it. Their names are in motion then.
func TestPartsOfEarlierMoments(t *testing.T) {
	for _, row := range []struct {
		consent           Consent
		earlier, refusals int
	}{{Consent{}, 2, 0}, {Of(part.Moment), 2, 0}, {Of(part.Absent), 0, 2}} {
		plan := planWith(t, with(), with(), func(head *part.Head) { head.Folders[0].Max = 8 }) // each knows of the other's change 9
		answer, err := Collect(plan, Options{Consent: row.consent}, func(*rows.Piece) error { return nil })
		before := Refused(plan, row.consent)
		if err != nil || len(answer.Earlier) != row.earlier || len(answer.Refusals) != row.refusals || len(before.Earlier) != row.earlier || len(before.Refusals) != row.refusals {
			t.Errorf("%+v: %+v, %+v, %v", row, answer.Earlier, answer.Refusals, err)
		}
		for _, one := range answer.Earlier {
			if one.Folder != "docs" || one.Kind != part.Moment || one.Why == "" || one.Device == "" {
				t.Errorf("%+v", one)
			}
		}
	}
}

// Of a name that is audited all is told that there is to tell beside: that it is a conflict copy, and that its permissions differ.
func TestWhatIsToldBesideANameThatIsAudited(t *testing.T) {
	const copied = "a.sync-conflict-20261126-170000-ABCDEFG.txt"
	mode := func(bits uint32) func(*part.Name) {
		return func(n *part.Name) { n.Own.Permissions, n.Disk.Permissions = &bits, bits }
	}
	plan := planOfNames(t, false, []*part.Name{named(copied, with(mode(0o600)))}, []*part.Name{named(copied, with(mode(0o644)))})
	answer, err := Collect(plan, Options{}, func(*rows.Piece) error { return nil })
	if err != nil {
		t.Fatal(err)
	}
	folder := answer.Folders[0]
	if len(folder.Conflicts) != 1 || folder.Conflicts[0].Name != copied || folder.Conflicts[0].Bytes != 5 || folder.Permissions.Len() != 1 || folder.Rows[copied] == nil {
		t.Errorf("%+v, %d", folder.Conflicts, folder.Permissions.Len())
	}
}
