package forecast

import (
	"fmt"
	"path"
	"sort"

	"golang.org/x/exp/slices"
	"syncthing-audit/lists"
)

// Names that hang together by their directories alone often are alike: as those of a directory that was renamed. Each step of a world takes all names at once,
// so such names go the same ways, and what a directory does depends on whether something is below it, and not on how much. So one of them stands for all. A
// drawn step may take each of them another way: names for which something is drawn stand for themselves alone.
//
// Names of the same bytes hang together, too, since one may be renamed from another one, or get its bytes from there. Where they are alike two of them stand for all:
// what one of many may get from another one, one of two may. If that is so in some order, all of them stand for themselves.

// fewNames is up to how many names that hang together are foretold one by one, alike or not.
const fewNames = 16

// likeness says that some names go as others do, each as that in the same place.
type likeness struct {
	key      string
	from, to *words
	second   *words // of names of the same bytes: the other one that stands for all
}

// A sieve leaves one of each names that are alike, with what isn't like anything.
type sieve struct {
	devices    []Device
	all        map[string]bool // the names
	apart      map[string]bool // keys of names that stand for themselves
	likenesses []likeness      // those of names that are left out with others stand before those of the others
}

func newSieve(devices []Device, names []Name) *sieve {
	s := &sieve{devices: devices, all: make(map[string]bool, len(names)), apart: map[string]bool{}}
	for place := range names {
		s.all[names[place].Name] = true
	}
	return s
}

// sifted gives the names that are left, rising.
func (s *sieve) sifted(names []Name) []Name {
	s.likenesses = nil
	left := s.parts(names)
	sortNames(left)
	return left
}

// parts sifts names of which some hang together: first each part by itself, and then parts that are alike.
func (s *sieve) parts(names []Name) []Name {
	var left []Name
	first := map[string]*words{}
	for _, part := range newTies(names).of(names) {
		part = s.part(part)
		sortNames(part)
		words, key := s.wordsOf(part)
		if other := first[key]; other != nil && !s.apart[key] {
			s.likenesses = append(s.likenesses, likeness{key, other, words, nil})
			continue
		}
		first[key] = words
		left = append(left, part...)
	}
	return left
}

// part sifts names that hang together: what is below the highest directories falls apart without them.
func (s *sieve) part(names []Name) []Name {
	above := newTies(names).above(names)
	switch {
	case len(above) == 0 && len(names) > fewNames:
		return s.ofSameBytes(names)
	case len(above) == 0:
		return names
	}
	isAbove := func(name Name) bool { return above[name.Name] }
	below := lists.Where(names, func(name Name) bool { return !above[name.Name] })
	return append(lists.Where(names, isAbove), s.parts(below)...)
}

// ofSameBytes sifts names that share bytes: of those that are alike, and have the same bytes, two are left.
func (s *sieve) ofSameBytes(names []Name) []Name {
	var left []Name
	seen := map[string][]*words{}
	for _, unit := range tiesBy(names, func(*Name, func(Content)) {}).of(names) {
		words, key := s.wordsOf(unit)
		key = "same bytes " + key
		same := fmt.Sprint(key, words.contents)
		if found := seen[same]; len(found) == 2 && !s.apart[key] {
			s.likenesses = append(s.likenesses, likeness{key, found[0], words, found[1]})
			continue
		}
		seen[same] = append(seen[same], words)
		left = append(left, unit...)
	}
	return left
}

// wordsOf gives the words of names that hang together, and a text that they share with others which are alike, and below the same directories.
func (s *sieve) wordsOf(names []Name) (*words, string) {
	l := newLoader(s.devices, names)
	key := l.shape(l.start(names))
	own := make(map[string]bool, len(names))
	for place := range names {
		own[names[place].Name] = true
	}
	for place := range names {
		above := path.Dir(names[place].Name)
		for above != "." && !s.all[above] {
			above = path.Dir(above)
		}
		if !own[above] {
			key += fmt.Sprintf("%q", above)
		}
		key += ";"
	}
	return &words{textsOf(names), l.content, l.target, l.timesByRank, int(l.epoch)}, key
}

// separates has names stand for themselves alone if they may go otherwise than those that are like them, and says whether they stood for others.
func (s *sieve) separates(noted notedNames) bool {
	found := false
	for place := range s.likenesses {
		if alike := &s.likenesses[place]; alike.isAmong(noted) {
			s.apart[alike.key], found = true, true
		}
	}
	return found
}

// isAmong says whether one of the names that stand for others is one of these.
func (l *likeness) isAmong(noted notedNames) bool {
	isOne := func(name string) bool {
		return slices.Contains(l.from.names, name) || l.second != nil && slices.Contains(l.second.names, name)
	}
	return lists.Has(noted.drawn, isOne) || l.second != nil && lists.Has(noted.tied, isOne)
}

// ties are names that hang together by something else than what is above all of them.
type ties struct {
	groups
	places map[string]int
	bytes  groups // by bytes and copies alone
}

func newTies(names []Name) *ties { return tiesBy(names, (*Name).eachFile) }

// tiesBy gives the ties by names, and by the bytes of which a call is made.
func tiesBy(names []Name, eachBytes func(*Name, func(Content))) *ties {
	t := &ties{newGroups(len(names)), make(map[string]int, len(names)), newGroups(len(names))}
	for place := range names {
		t.places[names[place].Name] = place
	}
	first := map[Content]int{}
	tie := func(one, other int) {
		t.join(one, other)
		t.bytes.join(one, other)
	}
	for place := range names {
		eachBytes(&names[place], func(content Content) {
			if other, is := first[content]; is {
				tie(place, other)
			} else {
				first[content] = place
			}
		})
		if other, is := t.places[rootOfAny(names[place].Name)]; is {
			tie(place, other)
		}
		for _, above := range t.eachAbove(names[place].Name) {
			t.join(place, above)
		}
	}
	return t
}

// rootOfAny gives what a name is a copy of; itself if it is none.
func rootOfAny(name string) string {
	if root := RootOfCopy(name); root != "" {
		return root
	}
	return name
}

// eachAbove gives the places of the names above one.
func (t *ties) eachAbove(name string) (places []int) {
	for above := path.Dir(name); above != "."; above = path.Dir(above) {
		if place, is := t.places[above]; is {
			places = append(places, place)
		}
	}
	return places
}

// above gives the highest names below which something is, all that hangs together with them by its bytes, and what is above that.
func (t *ties) above(names []Name) map[string]bool {
	isTaken, todo := map[int]bool{}, []int{}
	take := func(place int) {
		if !isTaken[place] {
			isTaken[place] = true
			todo = append(todo, place)
		}
	}
	for place := range names {
		if above := t.eachAbove(names[place].Name); len(above) > 0 {
			take(above[len(above)-1])
		}
	}
	tied := map[int][]int{}
	for place := range names {
		root := t.bytes.root(place)
		tied[root] = append(tied[root], place)
	}
	for len(todo) > 0 {
		place := todo[0]
		todo = todo[1:]
		for _, other := range append(t.eachAbove(names[place].Name), tied[t.bytes.root(place)]...) {
			take(other)
		}
	}
	above := map[string]bool{}
	for place := range isTaken {
		above[names[place].Name] = true
	}
	return above
}

// eachFile calls for the bytes of each file that a name is or was somewhere, be they none.
func (n *Name) eachFile(call func(Content)) {
	takeRecord := func(r *Record) {
		if r != nil && r.Type == File && !r.Deleted {
			call(r.Content)
		}
	}
	for i, own := range n.Own {
		takeRecord(own)
		for _, view := range n.Views[i] {
			takeRecord(view)
		}
		if what := n.Disk[i]; what != nil && what.Type == File {
			call(what.Content)
		}
	}
}

// words are what names that hang together have, by the numbers that a loader gave it.
type words struct {
	names    []string
	contents []Content
	targets  []string
	times    []int64
	epoch    int
}

// as gives a node of these words in the words of names that are alike.
func (w *words) as(other *words, node Node) Node {
	if at := slices.Index(w.contents, node.Content); at > 0 {
		node.Content = other.contents[at]
	}
	if at := slices.Index(w.targets, node.Target); at > 0 {
		node.Target = other.targets[at]
	}
	if at := sort.Search(len(w.times), func(at int) bool { return w.times[at] >= node.Time }); node.Type == File && at < len(w.times) && w.times[at] == node.Time {
		node.Time = other.times[at-w.epoch+other.epoch]
	}
	return node
}
