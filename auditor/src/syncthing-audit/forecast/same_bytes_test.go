package forecast

import (
	"fmt"
	"math/rand"
	"reflect"
	"sort"
	"strings"
	"testing"

	"syncthing-audit/lists"
)

// manyOfSameBytes draws a world as manyAlike does, of files in which few contents stand under many names.
func manyOfSameBytes(random *rand.Rand) World {
	world, contents := manyOf(random, kindsOfParts[:2]), 1+random.Intn(2)
	share := func(of *Content) {
		var part int
		if at := strings.LastIndexByte(of.Hash, ' '); of.Size > 0 {
			fmt.Sscan(of.Hash[at+1:], &part)
			of.Hash = fmt.Sprint(of.Hash[:at+1], part%contents)
		}
	}
	eachRecord(world.Names, func(record *Record) { share(&record.Content) })
	for _, name := range world.Names {
		for _, what := range name.Disk {
			if what != nil {
				share(&what.Content)
			}
		}
	}
	return world
}

// Of many names of the same bytes that are alike two stand for all, unless one may get its bytes from another one: what is foretold of all is what is foretold
// where each is looked at.
func TestTwoStandForAllOfTheSameBytes(t *testing.T) {
	compared, saved, several, apart := 0, 0, 0, 0
	for _, seed := range risingTo(150) {
		random := rand.New(rand.NewSource(seed))
		world := manyOfSameBytes(random)
		world.Devices[seed%2].Versions = VersionsKept
		names := world.Copied().Names
		sortNames(names)
		sieve := newSieve(world.Devices, names)
		left := sieve.sifted(names)
		if len(left) == len(names) {
			continue
		}
		commands := randomCommands(world.Devices, random)
		answer, noted := New(Budget{States: 200, Walks: 1, Total: 100000}).ofEach(world.Devices, left, commands)
		if sieve.separates(noted) {
			apart++
			continue
		}
		due, _ := New(Budget{States: 200, Walks: 1, Total: 100000}).ofEach(world.Devices, names, commands)
		if !answer.IsAll || !due.IsAll {
			continue
		}
		compared++
		if lists.Has(sieve.likenesses, func(alike likeness) bool { return alike.second != nil }) {
			saved++
			several += int(truth(len(due.Ends) > 1))
		}
		if one, other := sortedEnds(sieve.spread(answer, names)), sortedEnds(due); !reflect.DeepEqual(one, other) {
			t.Fatalf("%d: %d ends and %d\n%.3000s\n%.3000s", seed, len(one), len(other), one, other)
		}
	}
	if compared < 20 || saved < 8 || several < 2 || apart < 5 {
		t.Errorf("%d were compared, of the same bytes %d, with several ends %d; %d stand for themselves", compared, saved, several, apart)
	}
}

// Of many copies of one file that a device made few names are left in a sieve: two that are alike. Each of another state is left, too.
func TestWhatIsLeftOfCopies(t *testing.T) {
	for _, row := range []struct{ copies, other, left int }{{10, 0, 10}, {500, 0, 2}, {500, 1, 3}, {500, 2, 4}, {500, 9, 4}} {
		var names []Name
		for copy := 0; copy < row.copies; copy++ {
			made := inStep(fmt.Sprintf("%03d", copy), "text", 3, 5)
			onFirst(made)
			if copy < row.other {
				made.Disk[1] = made.Disk[0]
			}
			names = append(names, made)
		}
		if left := newSieve(three(), names).sifted(names); len(left) != row.left {
			t.Errorf("%+v: %d", row, len(left))
		}
	}
}

// However many copies of a file there are, it is known what becomes of them; but not where they may be renamed from one another.
func TestManyCopiesOfAFile(t *testing.T) {
	for _, copies := range []int{20, 500} {
		var names, renamed []Name
		for copy := 0; copy < copies; copy++ {
			made := inStep(fmt.Sprintf("%03d", copy), "text", 3, 5)
			onFirst(made)
			names, renamed = append(names, made), append(renamed, renamedHere(fmt.Sprintf("/%03d", copy), "text")...)
		}
		answer := New(Usual).OfGroup(three(), names)
		if !answer.IsAll || len(answer.Ends) != 1 || len(answer.Ends[0].Disks[2]) != copies || len(answer.Ends[0].Stuck)+len(answer.Ends[0].Apart) > 0 {
			t.Errorf("%d copies: %d ends", copies, len(answer.Ends))
		}
		if answer := New(Usual).OfGroup(three(), renamed); answer.IsOver != (2*copies > MostTogether) || len(answer.Ends) == 0 != answer.IsOver {
			t.Errorf("%d copies that were renamed: %v, %d ends", copies, answer.IsOver, len(answer.Ends))
		}
	}
}

// Names are noted that may get their bytes from one another: by a rename that a scan or a pull finds, and where a device may have them under another name alone.
func TestWhoMayGetBytesFromAnotherName(t *testing.T) {
	made := func(name string) Name {
		of := inStep(name, "text", 3, 5)
		onFirst(of)
		return of
	}
	gone := func(name string, devices ...int) Name {
		of := inStep(name, "text", 3, 5)
		for _, device := range devices {
			of.Disk[device] = nil
		}
		return of
	}
	unscanned := func(name string) Name {
		of := made(name)
		of.Own[0] = nil
		return of
	}
	for why, row := range map[string]struct {
		names []Name
		tied  string
	}{
		"two new ones":                       {[]Name{made("a"), made("b")}, "[]"},
		"a new one beside one that is there": {[]Name{made("a"), inStep("b", "text", 3, 5)}, "[]"},
		"a scan finds a rename":              {[]Name{unscanned("a"), gone("b", 0, 1, 2), made("c")}, "[a b]"},
		"a pull finds a rename":              {append(renamedHere("", "text"), made("f")), "[d e f]"},
		"two are deleted":                    {append(renamedHere("", "text")[:1], renamedHere("2", "text")[0]), "[]"},
		"the bytes are gone where it is new": {[]Name{func() Name { of := made("a"); of.Disk[0].Content = Content{4, "of else"}; return of }(), inStep("b", "text", 3, 5)}, "[a b]"},
	} {
		_, noted := New(Usual).ofEach(three(), row.names, nil)
		sort.Strings(noted.tied)
		if told := fmt.Sprint(noted.tied); told != row.tied {
			t.Errorf("%s: %s, not %s", why, told, row.tied)
		}
	}
}
