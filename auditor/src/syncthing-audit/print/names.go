package print

import (
	"sort"
	"strings"

	"golang.org/x/exp/slices"
	"syncthing-audit/lists"
)

// Names gives each device's name for a person, by its id.
type Names func(device string) string

// Each gives the name of each.
func (n Names) Each(devices []string) []string {
	return lists.Each(devices, n)
}

// Rising gives devices in the order of their names.
func (n Names) Rising(devices []string) []string {
	sorted := append([]string{}, devices...)
	sort.SliceStable(sorted, func(a, b int) bool { return n(sorted[a]) < n(sorted[b]) })
	return sorted
}

// All gives several names, rising.
func (n Names) All(devices []string) string { return n.AsTheyStand(n.Rising(devices)) }

// AsTheyStand gives several names in the order of the devices.
func (n Names) AsTheyStand(devices []string) string { return strings.Join(n.Each(devices), ", ") }

// have says that devices have something.
func (n Names) have(devices []string) string {
	return n.AsTheyStand(devices) + " " + oneOf(int64(len(devices)), "has", "have")
}

// Places are devices by what is told of them, in the order in which it comes first.
type Places struct {
	lists.Grouped[string, []string]
}

// Add adds a device of which something is told; no device where it is told of all.
func (p *Places) Add(told, device string) {
	if devices := p.Of(told); device != "" {
		*devices = AddOnce(*devices, device)
	}
}

// Each says what is told, with the names of the devices, rising.
func (p *Places) Each(named Names, say func(told, devices string)) {
	for _, told := range p.Keys {
		say(told, named.All(*p.Of(told)))
	}
}

// Joined gives what is said so as one text.
func (p *Places) Joined(named Names, say func(told, devices string) string) string {
	return Joined(p.Keys, "; ", func(told string) string { return say(told, named.All(*p.Of(told))) })
}

// AddOnce adds a text that isn't there yet.
func AddOnce(all []string, text string) []string {
	if slices.Contains(all, text) {
		return all
	}
	return append(all, text)
}

// Joined gives what is said of each of a list, with something between.
func Joined[Item any](list []Item, between string, say func(Item) string) string {
	return strings.Join(lists.Each(list, say), between)
}
