package audit

import (
	"testing"

	"syncthing-audit/finding"
	"syncthing-audit/join"
	"syncthing-audit/part"
)

var (
	record   = &part.Record{ModifiedBy: 1, Sequence: 1}
	local    = &part.Record{ModifiedBy: 1, Sequence: 1, Invalid: true}
	standing = &part.Node{Size: 7}
)

// rowOf gives a name with what two devices have of it.
func rowOf(one, other *part.Name) *join.Row {
	return &join.Row{Name: "a", At: []*part.Name{one, other}}
}

func TestWinners(t *testing.T) {
	sees := func(one *part.Record) *part.Name { return &part.Name{Views: []part.Seen{{Record: one}}} }
	cases := []struct {
		why        string
		one, other *part.Name
		known, has bool
	}{
		{"recorded", &part.Name{Own: record}, nil, true, true},
		{"unscanned", &part.Name{Disk: standing}, nil, true, false},
		{"added on a receive-only device", &part.Name{Own: local}, sees(local), true, false},
		{"changed on a receive-only device", &part.Name{Own: local}, &part.Name{Own: record}, true, true},
		{"seen alone", sees(record), nil, true, false},
		{"a local change that is seen alone", sees(local), nil, false, false},
	}
	for _, one := range cases {
		row := rowOf(one.one, one.other)
		if isKnown(row) != one.known || hasWinner(row) != one.has {
			t.Errorf("%s: known %v, has a winner %v", one.why, isKnown(row), hasWinner(row))
		}
	}
}

// A deletion that a device hasn't taken yet is counted, and one that all have isn't; nor is a newer file in its place.
func TestDeletionsOnTheirWay(t *testing.T) {
	at := func(version uint64, isDeleted bool) *part.Name {
		return &part.Name{Own: &part.Record{ModifiedBy: 1, Sequence: 1, Deleted: isDeleted, Version: [][2]uint64{{1, version}}}}
	}
	for _, one := range []struct {
		why        string
		one, other *part.Name
		is         bool
	}{
		{"on its way", at(2, true), at(1, false), true},
		{"on all", at(2, true), at(2, true), false},
		{"made anew", at(2, true), at(3, false), false},
		{"never had there", at(2, true), nil, false},
		{"a file", at(2, false), at(1, false), false},
	} {
		if isDeleting(rowOf(one.one, one.other)) != one.is {
			t.Errorf("%s: expected %v", one.why, one.is)
		}
	}
}

func TestOutside(t *testing.T) {
	ignored := part.LeftOut{Kind: part.Ignored, Why: "ignored"}
	left := func(node *part.Node, own *part.Record) *part.Name {
		return &part.Name{Disk: node, Own: own, Out: []part.LeftOut{ignored}}
	}
	cases := []struct {
		why        string
		one, other *part.Name
		outside    bool
	}{
		{"ignored by the one that has it", left(standing, nil), nil, true},
		{"ignored by both", left(standing, nil), left(standing, nil), true},
		{"the other one has it, too", left(standing, nil), &part.Name{Disk: standing}, false},
		{"the other one records it", left(standing, nil), &part.Name{Own: record}, false},
		{"recorded once", left(standing, record), nil, false},
		{"no longer on the disk", left(nil, nil), nil, false},
	}
	for _, one := range cases {
		if isOutside(rowOf(one.one, one.other)) != one.outside {
			t.Errorf("%s: expected %v", one.why, one.outside)
		}
	}
}

// What a device's record and its disk both say is one reason.
func TestReasonsOnce(t *testing.T) {
	ignored, odd := part.LeftOut{Kind: part.Ignored, Why: "ignored"}, part.LeftOut{Kind: part.Special, Why: "a pipe"}
	twice := &part.Name{Out: []part.LeftOut{ignored, odd, ignored}}
	if reasons := namesOf().reasonsOf(rowOf(twice, twice)); len(reasons) != 4 || reasons[0].Device != "A" || reasons[3].Device != "B" {
		t.Errorf("%v", reasons)
	}
}

func TestPermissions(t *testing.T) {
	with := func(bits uint32, kind int) *part.Record { return &part.Record{Type: kind, Permissions: &bits} }
	cases := []struct {
		why        string
		one, other *part.Name
		ignores    bool
		differ     bool
	}{
		{"the same", &part.Name{Own: with(0o644, 0), Disk: &part.Node{Permissions: 0o644}}, &part.Name{Own: with(0o644, 0)}, false, false},
		{"other bits count for nothing", &part.Name{Own: with(0o644, 0), Disk: &part.Node{Permissions: 0o4644}}, nil, false, false},
		{"on the disk", &part.Name{Own: with(0o644, 0), Disk: &part.Node{Permissions: 0o600}}, nil, false, true},
		{"on the disk, of another kind", &part.Name{Own: with(0o644, 0), Disk: &part.Node{Type: 1, Permissions: 0o755}}, nil, false, false},
		{"at two devices", &part.Name{Own: with(0o644, 0)}, &part.Name{Own: with(0o600, 0)}, false, true},
		{"at two devices, of another kind", &part.Name{Own: with(0o644, 0)}, &part.Name{Own: with(0o755, 1)}, false, false},
		{"where they are ignored", &part.Name{Own: with(0o644, 0)}, &part.Name{Own: with(0o600, 0)}, true, false},
		{"where there are none", &part.Name{Own: record}, &part.Name{Own: with(0o600, 0)}, false, false},
	}
	for _, one := range cases {
		members := []join.Member{{About: &part.Folder{}}, {About: &part.Folder{IgnoresPermissions: one.ignores}}}
		next := &names{collector: &collector{}, found: &finding.Folder{Members: members, Rows: map[string]*join.Row{}}}
		next.addPermissions(rowOf(one.one, one.other))
		if (next.found.Permissions.Len() > 0) != one.differ || (next.found.Rows["a"] != nil) != one.differ {
			t.Errorf("%s: expected %v", one.why, one.differ)
		}
	}
}
