package audit

import (
	"testing"

	"syncthing-audit/finding"
	"syncthing-audit/part"
)

func TestConflictCopies(t *testing.T) {
	const name = "a/text.sync-conflict-20261126-170000-ABCDEF2.txt"
	cases := []struct {
		why, name  string
		one, other *part.Name
		is         bool
	}{
		{"a copy", name, &part.Name{Disk: standing}, nil, true},
		{"a copy at both", name, &part.Name{Disk: standing}, &part.Name{Disk: standing}, true},
		{"as older releases name it", "text.sync-conflict-20161126-170000", &part.Name{Disk: standing}, nil, true},
		{"one that is gone", name, &part.Name{Own: record}, nil, false},
		{"a name of another kind", "text.sync-conflict", &part.Name{Disk: standing}, nil, false},
		{"a directory of this name", "text.sync-conflict-20161126-170000/b", &part.Name{Disk: standing}, nil, false},
	}
	for _, one := range cases {
		next := &names{found: &finding.Folder{}}
		row := rowOf(one.one, one.other)
		row.Name = one.name
		next.addConflict(row)
		if (len(next.found.Conflicts) == 1) != one.is {
			t.Errorf("%s: %v", one.why, next.found.Conflicts)
		}
	}
}
