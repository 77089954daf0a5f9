package outlook

import (
	"fmt"
	"math/rand"
	"reflect"
	"sort"
	"testing"

	"syncthing-audit/forecast"
	"syncthing-audit/forecast/read"
	"syncthing-audit/part"
)

// newTeller gives a teller without names.
func newTeller() *teller {
	return &teller{rows: read.NewRows(folderOf("send-receive")), choices: newChoices(forecast.New(forecast.Usual), nil), outlook: &Outlook{},
		unknown: map[read.Why]int64{}, kept: map[Kept]int64{}}
}

// An answer that doesn't say what becomes of names says why: the budget comes before all else.
func TestWhyThereIsNoAnswer(t *testing.T) {
	end := []forecast.End{{}}
	for place, row := range []struct {
		answer forecast.Answer
		due    read.Why
	}{
		{forecast.Answer{Ends: end}, ""}, {forecast.Answer{}, read.Endless}, {forecast.Answer{Ends: end, Endless: 1}, read.Endless},
		{forecast.Answer{IsOver: true}, read.Budget}, {forecast.Answer{IsOver: true, Untried: []int{1}}, read.Budget}, {forecast.Answer{Untried: []int{0}}, read.Untried},
	} {
		if why := newTeller().whyNoAnswer(&forecast.World{}, &row.answer); why != row.due {
			t.Errorf("%d: %q, not %q", place, why, row.due)
		}
	}
}

// Of names that hang together it isn't known what comes of them by the first reason of any.
func TestWhyAGroupIsUnknown(t *testing.T) {
	teller := newTeller()
	teller.rows.Unknown["b"], teller.rows.Unknown["c"] = read.Moving, read.Damaged
	group := func(names ...string) *forecast.World {
		made := &forecast.World{}
		for _, name := range names {
			made.Names = append(made.Names, forecast.Name{Name: name})
		}
		return made
	}
	first := read.Moving
	if read.Damaged < first {
		first = read.Damaged
	}
	for place, row := range []struct {
		group *forecast.World
		due   read.Why
	}{
		{group("a"), ""}, {group("a", "b"), read.Moving}, {group("c", "a"), read.Damaged}, {group("b", "c"), first}, {group("c", "b"), first},
	} {
		if why := teller.whyUnknown(row.group); why != row.due {
			t.Errorf("%d: %q, not %q", place, why, row.due)
		}
	}
}

// The counts of an outlook are those of its names: by fate, those of which not all orders were tried, and for each reason those that are kept or unknown.
func TestWhatAnOutlookCounts(t *testing.T) {
	for seed := int64(0); seed < 200; seed++ {
		random, teller := rand.New(rand.NewSource(seed)), newTeller()
		walked, kept, unknown := int64(0), map[string]int64{}, map[read.Why]int64{}
		whys := []read.Why{read.Budget, read.Twins}
		for count := random.Intn(12); count > 0; count-- {
			name := Name{Name: part.Bytes(fmt.Sprint(random.Intn(5))), Fate: Fates[random.Intn(len(Fates))], IsAll: random.Intn(2) == 0}
			for member := random.Intn(3); member > 0; member-- {
				name.Kept = append(name.Kept, Kept{Device: idOf(member), Why: forecast.OnlySends, member: member})
			}
			for loses := random.Intn(3); loses > 0; loses-- {
				name.Loses = append(name.Loses, Thing{Devices: at(0), Content: smallContents[2+random.Intn(3)]})
			}
			if name.Fate == Unknown {
				group := &forecast.World{Names: []forecast.Name{{Name: string(name.Name)}}}
				why := whys[random.Intn(2)]
				unknown[why]++
				teller.addUnknown(group, why)
				continue
			}
			if !name.IsAll {
				walked++
			}
			if name.Fate == Stays {
				for _, one := range name.Kept {
					kept[one.Device]++
				}
			}
			teller.add(name)
		}
		foretold := teller.end()
		counts := map[Fate]int64{}
		for place, name := range foretold.Listed {
			counts[name.Fate]++
			if place > 0 && foretold.Listed[place].isBefore(&foretold.Listed[place-1]) {
				t.Fatalf("%d: %+v comes behind %+v", seed, name, foretold.Listed[place-1])
			}
		}
		told := map[string]int64{}
		for _, group := range foretold.Kept {
			if group.Why != string(forecast.OnlySends) {
				t.Errorf("%d: %+v", seed, group)
			}
			told[group.Devices[0]] = group.Names
		}
		toldUnknown := map[read.Why]int64{}
		for _, group := range foretold.Unknown {
			toldUnknown[read.Why(group.Why)] = group.Names
		}
		if !reflect.DeepEqual(counts, countsOf(foretold)) || foretold.Walked != walked || foretold.Names != int64(len(foretold.Listed)) || !reflect.DeepEqual(told, kept) || !reflect.DeepEqual(toldUnknown, unknown) {
			t.Fatalf("%d: %+v, not %v, %d, %v, %v", seed, foretold, counts, walked, kept, unknown)
		}
		for _, groups := range [][]Group{foretold.Kept, foretold.Unknown} {
			if !sort.SliceIsSorted(groups, func(a, b int) bool { return groups[a].Names > groups[b].Names }) {
				t.Fatalf("%d: %+v", seed, groups)
			}
		}
	}
}

// Of a reason that holds for some devices these are told. The list has an end, and the counts don't.
func TestWhatAnOutlookLists(t *testing.T) {
	teller := newTeller()
	teller.rows.All = []read.Unknown{{Why: read.Paused, Members: []int{2, 3}}, {Why: read.Absent}}
	teller.devices = folderDevices(4)
	for count := 0; count < MostListed+1; count++ {
		teller.addUnknown(&forecast.World{Names: []forecast.Name{{Name: "a"}}}, read.Paused)
	}
	told := teller.end()
	if len(told.Listed) != MostListed || told.Names != MostListed+1 || !reflect.DeepEqual(told.Unknown, []Group{{Why: string(read.Paused), Devices: at(2, 3), Names: MostListed + 1}}) {
		t.Errorf("%d listed of %d: %+v", len(told.Listed), told.Names, told.Unknown)
	}
}

// The order of groups is by their names, then by the reason, then by the first device.
func TestTheOrderOfGroups(t *testing.T) {
	rising := []Group{{Why: "b", Names: 9}, {Why: "a", Devices: at(1), Names: 5, first: 1}, {Why: "a", Devices: at(2), Names: 5, first: 2}, {Why: "b", Devices: at(0), Names: 5}, {Why: "a", Names: 1}}
	for one := range rising {
		for other := range rising {
			if is := rising[one].isBefore(&rising[other]); is != (one < other) {
				t.Errorf("%+v before %+v: %v", rising[one], rising[other], is)
			}
		}
	}
	for _, devices := range [][]string{nil, at(0)} {
		group := Group{Why: "a", Names: 5, Devices: devices}
		if group.isBefore(&Group{Why: "a", Names: 5}) || (&Group{Why: "a", Names: 5}).isBefore(&group) {
			t.Errorf("%+v", group)
		}
	}
}

// The order of names is by their danger: the fate, then how many bytes are lost, then the name.
func TestTheOrderOfNames(t *testing.T) {
	loses := func(sizes ...int64) (made []Thing) {
		for _, size := range sizes {
			made = append(made, Thing{Content: forecast.Content{Size: size}})
		}
		return made
	}
	rising := []Name{{Name: "b", Fate: Lost, Loses: loses(3, 4)}, {Name: "a", Fate: Lost, Loses: loses(6)}, {Name: "c", Fate: Lost, Loses: loses(1, 5)}, {Name: "a", Fate: Unknown}, {Name: "a", Fate: Depends},
		{Name: "a", Fate: Changed}, {Name: "a", Fate: Deleted}, {Name: "a", Fate: Stays}, {Name: "a", Fate: ByItself}, {Name: "b", Fate: ByItself}}
	for one := range rising {
		for other := range rising {
			if is := rising[one].isBefore(&rising[other]); is != (one < other) {
				t.Errorf("%+v before %+v: %v", rising[one], rising[other], is)
			}
		}
	}
}
