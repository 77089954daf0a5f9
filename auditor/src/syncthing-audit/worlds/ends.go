package worlds

import (
	"encoding/json"
	"sort"
	"strings"

	"golang.org/x/exp/slices"
	"syncthing-audit/forecast"
)

// Texts gives ends as texts to compare, each once, rising.
func Texts(ends []End) []string {
	texts := make([]string, 0, len(ends))
	for _, end := range ends {
		text, err := json.Marshal(end.spread())
		if err != nil {
			panic(err)
		}
		texts = append(texts, string(text))
	}
	sort.Strings(texts)
	return slices.Compact(texts)
}

// spread gives an end with an entry for each device.
func (e End) spread() End {
	end := End{}
	for devices, names := range e {
		for _, device := range strings.Split(devices, ", ") {
			end[device] = names
		}
	}
	return end
}

// Foretold gives the ends that the forecast has of a world, and whether it tried all orders.
func (w *World) Foretold(release forecast.Release) ([]End, bool, error) {
	world, err := w.Play(release)
	if err != nil {
		return nil, false, err
	}
	answer := forecast.New(forecast.Usual).OfGroup(world.Devices, world.Names)
	var names []string
	for name := range w.Devices {
		names = append(names, name)
	}
	sort.Strings(names)
	var ends []End
	for _, end := range answer.Ends {
		foretold := End{}
		for place, name := range names {
			foretold[name] = namesOf(end.Disks[place])
		}
		for _, at := range end.Versions {
			foretold[names[at.Device]]["old versions of "+at.Name] = wordsOf(world.At(at.Device, at.Name))
		}
		ends = append(ends, foretold)
	}
	return ends, answer.IsAll, nil
}

// namesOf gives what stands on a disk.
func namesOf(places []forecast.Place) map[string]interface{} {
	names := map[string]interface{}{}
	copies := map[string][]string{}
	for _, place := range places {
		switch root := forecast.RootOfCopy(place.Name); {
		case root != "":
			copies[root] = append(copies[root], wordsOf(&place.Node))
		case place.IsCopy:
			copies[place.Name] = append(copies[place.Name], wordsOf(&place.Node))
		default:
			names[place.Name] = wordsOf(&place.Node)
		}
	}
	for root, words := range copies {
		sort.Strings(words)
		names["copies of "+root] = slices.Compact(words)
	}
	return names
}

func wordsOf(what *forecast.Node) string {
	switch what.Type {
	case forecast.Directory:
		return "directory"
	case forecast.Symlink:
		return "symlink " + what.Target
	}
	return "file " + textOf(what.Content)
}
