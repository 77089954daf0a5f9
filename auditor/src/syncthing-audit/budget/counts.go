package budget

import (
	"time"

	"syncthing-audit/history"
)

// counts count what waits in each place.
type counts struct {
	places []Place
	of     []history.Waiting
}

func newCounts(places []Place) *counts {
	counted := &counts{places: places, of: make([]history.Waiting, len(places))}
	for at, place := range places {
		counted.of[at].Folder, counted.of[at].Number = place.Folder, place.Device
	}
	return counted
}

// wait counts a name that isn't asked for now.
func (c *counts) wait(name *name) {
	for _, file := range name.files {
		of := &c.of[file.at]
		of.Files++
		of.Bytes += file.bytes
		if file.file.at == 0 {
			of.Never++
			of.NeverBytes += file.bytes
			continue
		}
		at := time.Unix(file.file.at, 0).UTC()
		if of.Oldest == nil || at.Before(*of.Oldest) {
			of.Oldest = &at
		}
	}
}

// told gives the places where something waits.
func (c *counts) told() []history.Waiting {
	left := []history.Waiting{}
	for _, waiting := range c.of {
		if waiting.Files > 0 {
			left = append(left, waiting)
		}
	}
	return left
}
