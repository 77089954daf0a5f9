package summary

import (
	"fmt"
	"math/rand"
	"reflect"
	"testing"

	"syncthing-audit/finding"
	"syncthing-audit/join"
	"syncthing-audit/part"
)

// manyWorlds is how many random folders each property is asked of.
const manyWorlds = 600

// A group says of each of its names what the name by itself says, told as many: whatever the name's details are, and whatever becomes of it.
func TestAGroupSpeaksOfEachOfItsNames(t *testing.T) {
	groups, known := 0, 0
	for seed := int64(1); seed <= manyWorlds; seed++ {
		random := rand.New(rand.NewSource(seed))
		all := randomWorld(random)
		for kind := 0; kind < 3; kind++ {
			row := all.randomName(random)
			for number := 0; number <= mostAlone; number++ {
				all.rows[fmt.Sprintf("%d %d", number, kind)] = row
			}
		}
		answer := all.answer()
		if seed%10 == 0 {
			foretellAll(answer)
		}
		summary := Of(answer)
		for _, group := range summary.Folders[0].Groups {
			groups++
			if group.of.foretold.isKnown() {
				known++
			}
			for _, name := range group.First {
				many := *all.alone(string(name), answer)
				many.isMany = true
				told, foretold := adviceOf(&many, summary.Called()), many.tell(summary.Called())
				if !reflect.DeepEqual(told, group.Advice) || foretold != group.Foretold {
					t.Fatalf("seed %d: a group says\n%s\n%q, and %s\n%s\n%q\n%s", seed, group.Foretold, group.Advice, name, foretold, told,
						rowText(answer.Folders[0].Rows[string(name)]))
				}
			}
		}
	}
	if groups < manyWorlds/4 || known < manyWorlds/50 {
		t.Errorf("only %d groups, and of %d it is known what happens", groups, known)
	}
}

// alone gives what is told of a name of an answer by itself, where what happens to it is as in that answer.
func (w *world) alone(name string, whole *finding.Answer) *File {
	alone := *w
	alone.rows = map[string][]*part.Name{name: w.rows[name]}
	answer := alone.answer()
	if told := whole.Folders[0].Outlook; told != nil {
		shareAll(answer)
		answer.Folders[0].Outlook = told
	}
	return Of(answer).Folders[0].Files[0]
}

// rowText tells what the devices have of a name.
func rowText(row *join.Row) string {
	text := ""
	for place, at := range row.At {
		if at == nil {
			continue
		}
		text += fmt.Sprintf("%d:", place)
		if at.Own != nil {
			text += fmt.Sprintf(" recorded %+v", *at.Own)
		}
		if at.Disk != nil {
			text += fmt.Sprintf(" on the disk %+v", *at.Disk)
		}
		text += "\n"
	}
	return text
}

// Names of which other things go aren't told as one, though the same is to be done about them.
func TestNamesThatBecomeOtherThingsAreNotOneGroup(t *testing.T) {
	answer := answerOf(2, func(folder *finding.Folder) {
		for number := 0; number <= mostAlone; number++ {
			other := byte(10 + 3*number)
			fails(folder, fmt.Sprint("changed ", number), []*part.Name{file(2, other), with(file(1, other+1), minuteBefore)}, "RecordDiffers 2", "StoreDiffers 2")
			fails(folder, fmt.Sprint("new ", number), []*part.Name{file(2, other+2), nil}, "RecordMissing 2", "StoreDiffers 2")
		}
	})
	foretellAll(answer)
	groups := Of(answer).Folders[0].Groups
	if len(groups) != 2 || !reflect.DeepEqual(groups[0].Advice, groups[1].Advice) || groups[0].Foretold == groups[1].Foretold {
		t.Errorf("%d groups: %+v", len(groups), groups)
	}
}
