package forecast

import (
	"path"
	"sort"
)

// split gives groups of names that hang together: a directory with all below it, unless it is in step, files that share bytes which
// aren't empty, and conflict copies with what they are copies of.
func split(names []Name) [][]Name {
	groups := newGroups(len(names))
	places := make(map[string]int, len(names))
	for place := range names {
		places[names[place].Name] = place
	}
	first := map[Content]int{}
	for place := range names {
		for above := path.Dir(names[place].Name); above != "."; above = path.Dir(above) {
			if found, is := places[above]; is && !names[found].isDirectoryInStep() {
				groups.join(place, found)
			}
		}
		if isConflictCopy(names[place].Name) {
			if found, is := places[rootOf(names[place].Name)]; is {
				groups.join(place, found)
			}
		}
		names[place].EachContent(func(content Content) {
			if found, is := first[content]; is {
				groups.join(place, found)
			} else {
				first[content] = place
			}
		})
	}
	return groups.of(names)
}

// isDirectoryInStep says whether all have a directory there, have recorded it so, and know that of each other. Nothing changes it then.
func (n *Name) isDirectoryInStep() bool {
	first := n.Own[0]
	isSame := func(entry *Record) bool {
		return entry != nil && entry.Type == Directory && !entry.Deleted && entry.Flag == Valid && compareVectors(entry.Version, first.Version) == equal
	}
	for i, own := range n.Own {
		what := n.Disk[i]
		if !isSame(own) || what == nil || what.Type != Directory || own.Mode != NoMode && what.Mode != own.Mode {
			return false
		}
		for j, view := range n.Views[i] {
			if j != i && !isSame(view) {
				return false
			}
		}
	}
	return true
}

// EachContent calls for all bytes that a name has somewhere.
func (n *Name) EachContent(call func(Content)) {
	take := func(content Content) {
		if content.Hash != "" && content.Size > 0 {
			call(content)
		}
	}
	for i, own := range n.Own {
		if own != nil {
			take(own.Content)
		}
		for _, view := range n.Views[i] {
			if view != nil {
				take(view.Content)
			}
		}
		if what := n.Disk[i]; what != nil {
			take(what.Content)
		}
	}
}

// groups are sets that are joined.
type groups []int

func newGroups(count int) groups {
	g := make(groups, count)
	for place := range g {
		g[place] = place
	}
	return g
}

func (g groups) root(place int) int {
	for g[place] != place {
		g[place] = g[g[place]]
		place = g[place]
	}
	return place
}

func (g groups) join(a, b int) { g[g.root(a)] = g.root(b) }

// of gives the groups, by their first names.
func (g groups) of(names []Name) [][]Name {
	by := map[int][]Name{}
	for place := range names {
		root := g.root(place)
		by[root] = append(by[root], names[place])
	}
	parts := make([][]Name, 0, len(by))
	for _, group := range by {
		sort.Slice(group, func(a, b int) bool { return group[a].Name < group[b].Name })
		parts = append(parts, group)
	}
	sort.Slice(parts, func(a, b int) bool { return parts[a][0].Name < parts[b][0].Name })
	return parts
}
