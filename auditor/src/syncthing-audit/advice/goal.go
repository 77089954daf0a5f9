// Package advice finds what to do on the disks of Syncthing devices so that a name comes to an end that someone wants. It searches in the
// forecast: a plan is given only if each of its ends is the goal.
//
// Plans are carried out while the devices are stopped, and then all of them are started; or they run, and all of them scan. A plan is
// followed from the top, and may be left after each step: then nothing is lost that wouldn't be lost by the whole plan, or without one.
//
// The package says nothing in words. It reads nothing, and changes nothing.
package advice

import (
	"syncthing-audit/forecast"
	"syncthing-audit/lists"
)

// Goal is what is to stand at a name on all devices; without a node nothing is.
type Goal struct {
	Name string
	Node *forecast.Node
}

// isReached says whether an end is the goal: the same kind, bytes and target stand on each device.
func (g Goal) isReached(end *forecast.End) bool {
	for _, disk := range end.Disks {
		var there *forecast.Node
		for place := range disk {
			if disk[place].Name == g.Name && !disk[place].IsCopy {
				there = &disk[place].Node
			}
		}
		if !isSame(there, g.Node) {
			return false
		}
	}
	return true
}

// isReachedAtAll says whether each of these ends is the goal.
func (g Goal) isReachedAtAll(ends []forecast.End) bool {
	return !lists.Has(ends, func(end forecast.End) bool { return !g.isReached(&end) })
}

func isSame(a, b *forecast.Node) bool {
	if a == nil || b == nil {
		return a == b
	}
	return a.Type == b.Type && a.Content == b.Content && a.Target == b.Target
}

// Contents are sets of files' bytes.
type Contents map[forecast.Content]bool

// OnDisks gives the bytes that some names have on disks.
func OnDisks(names []forecast.Name) Contents {
	found := Contents{}
	for place := range names {
		for _, what := range names[place].Disk {
			if what != nil && what.Content.Size > 0 {
				found[what.Content] = true
			}
		}
	}
	return found
}

// lostIn adds the bytes that stand on no disk at some end.
func (c Contents) lostIn(ends []forecast.End, lost Contents) {
	for _, end := range ends {
		left := end.Contents()
		for content := range c {
			if !left[content] {
				lost[content] = true
			}
		}
	}
}

// isWithin says whether all of these are among others.
func (c Contents) isWithin(others ...Contents) bool {
	for content := range c {
		if !lists.Has(others, func(other Contents) bool { return other[content] }) {
			return false
		}
	}
	return true
}
