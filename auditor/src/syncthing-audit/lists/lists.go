// Package lists makes lists of lists.
package lists

import "golang.org/x/exp/slices"

// Where gives the items of which something is so.
func Where[Item any](list []Item, is func(Item) bool) []Item {
	var found []Item
	for _, item := range list {
		if is(item) {
			found = append(found, item)
		}
	}
	return found
}

// Has says whether it is so of some item.
func Has[Item any](list []Item, is func(Item) bool) bool { return slices.IndexFunc(list, is) >= 0 }

// Each gives what is made of each item, be it nothing of none.
func Each[Item, Made any](list []Item, of func(Item) Made) []Made {
	made := make([]Made, 0, len(list))
	for _, item := range list {
		made = append(made, of(item))
	}
	return made
}

// AtMost gives so many items, the first ones.
func AtMost[Item any](most int, list []Item) []Item {
	if len(list) > most {
		return list[:most]
	}
	return list
}

// Grouped has groups by their keys, in the order in which these came first.
type Grouped[Key comparable, Group any] struct {
	Keys []Key
	of   map[Key]*Group
}

// Has says whether a key has a group.
func (g *Grouped[Key, Group]) Has(key Key) bool { return g.of[key] != nil }

// Of gives the group of a key: an empty one where it had none.
func (g *Grouped[Key, Group]) Of(key Key) *Group {
	if g.of == nil {
		g.of = map[Key]*Group{}
	}
	if g.of[key] == nil {
		g.of[key] = new(Group)
		g.Keys = append(g.Keys, key)
	}
	return g.of[key]
}

// All gives the groups.
func (g *Grouped[Key, Group]) All() []*Group { return Each(g.Keys, g.Of) }
