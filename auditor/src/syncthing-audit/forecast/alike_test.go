package forecast

import (
	"fmt"
	"math/rand"
	"reflect"
	"sort"
	"strings"
	"testing"
)

// kindsOfParts are names of which many like them hang together by directories: a file, one that was renamed, three, and a directory with what is below it.
var kindsOfParts = [][]string{{"d/%d"}, {"d/%d", "e/%d"}, {"d/%d", "e/%d"}, {"d/%d", "e/%d", "e/%d b"}, {"d/%d", "d/%d/a", "e/%d", "e/%d/a"}, {"d/%d", "d/%d/a", "d/%d/b", "e/%d/a"}}

// manyAlike draws a world of two or three directories with many names below that are alike, but for some at fault. All hang together.
func manyAlike(random *rand.Rand) World { return manyOf(random, kindsOfParts) }

func manyOf(random *rand.Rand, kinds [][]string) World {
	world := World{}
	for i := 0; i < 2+random.Intn(2); i++ {
		world.Devices = append(world.Devices, randomDevice(uint64(10*(i+1)), random))
	}
	for _, name := range []string{"d", "e"} {
		above := ofPart(randomName(name, world.Devices, random), random.Intn(3)) // what is no directory may have the bytes of a part
		above.Name = name
		world.Names = append(world.Names, above)
	}
	kind := kinds[random.Intn(len(kinds))]
	patterns := make([]Name, len(kind))
	for place := range kind {
		patterns[place] = randomName(kind[place], world.Devices, random)
		if place > 0 && random.Intn(2) == 0 {
			patterns[place] = renamedFrom(patterns[0], kind[place])
		}
	}
	parts := 1 + (15+random.Intn(20))/len(kind)
	odd, swaps := random.Intn(3)*random.Intn(2), random.Intn(3) == 0
	for part := 0; part < parts; part++ {
		for place := range kind {
			name := ofPart(patterns[place], part)
			if part >= parts-odd && random.Intn(2) == 0 {
				name.Disk[random.Intn(len(name.Disk))] = standing(nil, random)
			}
			if swaps && part%2 == 1 {
				name.Name = swapped.Replace(name.Name)
			}
			world.Names = append(world.Names, name)
		}
	}
	return world
}

// swapped has a name be below the other directory.
var swapped = strings.NewReplacer("d/", "e/", "e/", "d/")

// renamedFrom gives a name that a device has now, in place of another one that it had.
func renamedFrom(from Name, name string) Name {
	renamed := Name{Name: name}
	for range from.Own {
		renamed.Own, renamed.Disk, renamed.Views = append(renamed.Own, nil), append(renamed.Disk, nil), append(renamed.Views, make([]*Record, len(from.Own)))
	}
	renamed.Disk[0], from.Disk[0] = from.Disk[0], nil
	return renamed
}

// ofPart gives a pattern with the bytes and times of a part of its own.
func ofPart(pattern Name, part int) Name {
	content := func(of Content) Content {
		if of.Size > 0 {
			of.Hash += fmt.Sprint(" ", part)
		}
		return of
	}
	time := func(of int64) int64 {
		if of > 0 {
			return of*1000 + int64(part)
		}
		return of
	}
	record := func(of *Record) *Record {
		if of == nil {
			return nil
		}
		other := *of
		other.Content, other.Time = content(of.Content), time(of.Time)
		return &other
	}
	name := Name{Name: strings.Replace(pattern.Name, "%d", fmt.Sprint(10+part), 1)}
	for i, own := range pattern.Own {
		views := []*Record{}
		for _, view := range pattern.Views[i] {
			views = append(views, record(view))
		}
		name.Own, name.Views = append(name.Own, record(own)), append(name.Views, views)
		what := pattern.Disk[i]
		if what != nil {
			what = &Node{what.Type, time(what.Time), content(what.Content), what.Target, what.Mode}
		}
		name.Disk = append(name.Disk, what)
	}
	return name
}

// sortedEnds gives an answer's ends, rising: what stands on the disks, and what is stuck or kept.
func sortedEnds(answer Answer) []string {
	var texts []string
	for _, end := range answer.Ends {
		for _, all := range [][]Stuck{end.Stuck, end.Apart} {
			sort.Slice(all, func(a, b int) bool {
				return all[a].Device < all[b].Device || all[a].Device == all[b].Device && (all[a].Name < all[b].Name || all[a].Name == all[b].Name && all[a].Why < all[b].Why)
			})
		}
		text := fmt.Sprint(end.Stuck, end.Apart, end.Versions, end.Dropped)
		for i, disk := range end.Disks {
			var things []string
			for _, place := range disk {
				what := place.Node
				things = append(things, fmt.Sprint(place.Name, place.IsCopy, what.Type, what.Content, what.Target, what.Mode, what.Time))
			}
			sort.Strings(things)
			text += fmt.Sprint(i, things)
		}
		texts = append(texts, text)
	}
	sort.Strings(texts)
	return texts
}

func risingTo(count int64) (all []int64) {
	for number := int64(0); number < count; number++ {
		all = append(all, number)
	}
	return all
}

// Of many names that hang together, most of which are alike, one stands for all that are: what is foretold of all is what is foretold where each is looked at.
func TestOneStandsForAllThatAreAlike(t *testing.T) {
	compared, saved, several := 0, 0, 0
	for _, seed := range append(risingTo(60), 2204, 8018, 9230) { // the last ones have files below what is no directory, and directories that are made for others
		random := rand.New(rand.NewSource(seed))
		world := manyAlike(random)
		commands := randomCommands(world.Devices, random)
		world.Devices[seed%2].Versions = VersionsKept
		for place := range world.Names {
			world.Names[place].Ignored = []Ignored{{Names: seed % 3}, {Names: 1}}
		}
		found := New(Budget{States: 400, Walks: 1, Total: 10000}).OfGroup(world.Devices, world.Copied().Names, commands...)
		if !found.IsAll {
			continue
		}
		names := world.Copied().Names
		sortNames(names)
		due, _ := New(Budget{States: 1000, Walks: 1, Total: 10000}).ofEach(world.Devices, names, commands)
		if !due.IsAll {
			continue
		}
		compared++
		if left := newSieve(world.Devices, names).sifted(names); len(left) < len(names)/2 {
			saved++
			if len(due.Ends) > 1 {
				several++
			}
		}
		if !reflect.DeepEqual(found.Names, due.Names) {
			t.Errorf("%d: %v", seed, found.Names)
		}
		if one, other := sortedEnds(found), sortedEnds(due); !reflect.DeepEqual(one, other) {
			t.Fatalf("%d: %d ends and %d\n%.3000s\n%.3000s", seed, len(one), len(other), one, other)
		}
	}
	if compared < 20 || saved < 10 || several < 2 {
		t.Errorf("%d were compared, with fewer names %d, with several ends %d", compared, saved, several)
	}
}

// Of a tree that was renamed few names are left in a sieve, however many directories and files it has, and however many files each directory. Those at fault are left.
func TestWhatIsLeftInASieve(t *testing.T) {
	for _, row := range []struct{ directories, files, rotten, left int }{{1, 1, 0, 6}, {1, 400, 0, 6}, {1, 400, 1, 8}, {30, 1, 0, 8}, {30, 20, 0, 6}, {30, 20, 1, 12}, {30, 20, 2, 18}} {
		names := renamedDirectory("")
		for directory := 0; directory < row.directories; directory++ {
			at := fmt.Sprint("/", directory)
			names = append(names, renamedDirectory(at)...)
			for file := 0; file < row.files-directory/2; file++ {
				renamed := renamedHere(fmt.Sprint(at, "/", file), fmt.Sprint("of ", directory, " ", file))
				if file == 0 && directory >= row.directories-row.rotten {
					renamed[0].changed(1, fmt.Sprint("or ", directory, " ", file), int64(5+directory%2))
				}
				names = append(names, renamed...)
			}
		}
		sortNames(names)
		if left := newSieve(three(), names).sifted(names); len(left) != row.left {
			t.Errorf("%+v: %v", row, textsOf(left))
		}
	}
}

// Names aren't alike that are below different directories, or of which one is tied to something else: to a directory, say, in place of which its bytes stand somewhere.
func TestWhoIsAlike(t *testing.T) {
	for why, row := range map[string]struct {
		change func(names map[string]*Name)
		left   string
	}{
		"two directories that are alike":         {func(map[string]*Name) {}, "[d d/a]"},
		"two directories":                        {func(names map[string]*Name) { names["e"].changed(2, "another", 8) }, "[d d/a e e/a]"},
		"bytes of one in place of its directory": {func(names map[string]*Name) { names["d"].changed(2, "of d/b", 8) }, "[d d/a d/b e e/a]"},
		"the same bytes":                         {func(names map[string]*Name) { names["d/b"].changed(2, "of d/c", 8) }, "[d d/a d/b d/c e e/a]"},
		"a change":                               {func(names map[string]*Name) { names["d/b"].changed(2, "another", 8) }, "[d d/a d/b e e/a]"},
		"changes that are alike":                 {func(names map[string]*Name) { names["d/b"].changed(2, "one", 8); names["d/c"].changed(2, "two", 9) }, "[d d/a d/b e e/a]"},
		"an empty file":                          {func(names map[string]*Name) { names["d/b"].changed(2, "", 8); names["e/b"].changed(2, "", 8) }, "[d d/a d/b e e/a e/b]"},
	} {
		var names []Name
		for _, name := range []string{"d", "d/a", "d/b", "d/c", "d/d", "e", "e/a", "e/b"} {
			names = append(names, inStep(name, "of "+name, 3, 5))
		}
		byName := map[string]*Name{}
		for place := range names {
			byName[names[place].Name] = &names[place]
		}
		row.change(byName)
		if left := fmt.Sprint(textsOf(newSieve(three(), names).sifted(names))); left != row.left {
			t.Errorf("%s: %s are left, not %s", why, left, row.left)
		}
	}
}

// renamedDirectory gives a directory that the first of three devices renamed, of which the others heard nothing.
func renamedDirectory(name string) []Name {
	names := renamedHere(name, "")
	for _, name := range names {
		eachRecord([]Name{name}, func(r *Record) { r.Type, r.Content = Directory, Content{} })
		for _, what := range name.Disk {
			if what != nil {
				what.Type, what.Content = Directory, Content{}
			}
		}
	}
	return names
}
