package audit

import (
	"fmt"
	"testing"

	"syncthing-audit/finding"
	"syncthing-audit/join"
	"syncthing-audit/part"
)

const overListed = 3

// namesOf gives what goes through a folder of two devices, strictly, with these kinds left out.
func namesOf(leaveOut ...string) *names {
	options := Options{Consent: Of(leaveOut...)}
	members := []join.Member{{Device: &join.Device{Head: &part.Head{Device: "A"}}, About: &part.Folder{}}, {Device: &join.Device{Head: &part.Head{Device: "B"}}, About: &part.Folder{}}}
	return &names{collector: &collector{options: options, answer: &finding.Answer{}}, found: &finding.Folder{Members: members, Rows: map[string]*join.Row{}}}
}

// rowsOut gives names that no document says, with two bytes each.
func rowsOut(next *names, take func(*join.Row)) {
	for number := 0; number < finding.MostListed+overListed; number++ {
		row := rowOf(&part.Name{Disk: &part.Node{Size: 2}, Out: []part.LeftOut{{Kind: part.Unreadable, Why: "it can't be read"}}}, nil)
		row.Name = fmt.Sprintf("%05d", number)
		take(row)
	}
}

// What isn't listed any more is counted, and the kinds that it would take to leave it out are known.
func TestManyRefusals(t *testing.T) {
	next := namesOf()
	rowsOut(next, func(row *join.Row) { next.row(row) })
	if len(next.answer.Refusals) != finding.MostListed || next.answer.Unlisted[part.Unreadable] != overListed || len(next.found.LeftOut) != 0 {
		t.Errorf("%d, %v", len(next.answer.Refusals), next.answer.Unlisted)
	}
}

func TestManyNamesThatAreLeftOut(t *testing.T) {
	next := namesOf(part.Unreadable)
	rowsOut(next, func(row *join.Row) { next.row(row) })
	below := rowOf(&part.Name{Out: []part.LeftOut{{Kind: part.Unreadable, Why: "it can't be read", Below: true}}}, nil)
	below.Name = "d/"
	next.row(below)
	inside := rowOf(nil, &part.Name{Own: record, Disk: standing})
	inside.Name = "d/a"
	next.row(inside)
	count := next.found.Unlisted.LeftOut
	if len(next.found.LeftOut) != finding.MostListed || count != (finding.Count{Names: overListed + 1, Bytes: 2*overListed + standing.Size}) {
		t.Errorf("%d, %v", len(next.found.LeftOut), count)
	}
	if !(&finding.Answer{Folders: []*finding.Folder{next.found}}).IsPartial() {
		t.Error("nothing is left out")
	}
}

func TestManyConflictCopies(t *testing.T) {
	next := namesOf()
	for number := 0; number < finding.MostListed+overListed; number++ {
		row := rowOf(&part.Name{Own: record, Disk: standing}, nil)
		row.Name = fmt.Sprintf("%05d.sync-conflict-20261126-170000.txt", number)
		next.addConflict(row)
	}
	count := next.found.Unlisted.Conflicts
	if len(next.found.Conflicts) != finding.MostListed || count != (finding.Count{Names: overListed, Bytes: overListed * standing.Size}) {
		t.Errorf("%d, %v", len(next.found.Conflicts), count)
	}
}
