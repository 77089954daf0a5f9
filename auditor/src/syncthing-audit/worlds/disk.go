package worlds

import (
	"path"
	"strings"

	"syncthing-audit/forecast"
)

// The modes and the unit of times of what a history makes.
const (
	usualMode      = 0o644
	usualDirectory = 0o755
	second         = 1e9
)

// disk is one device's disk in a world.
type disk struct {
	world  *forecast.World
	device int
	now    int64
}

func (d disk) at(name string) *forecast.Node { return d.world.At(d.device, name) }

func (d disk) remove(name string) {
	if d.at(name) != nil {
		d.world.Remove(d.device, name)
		d.touchAbove(name)
	}
}

// touchAbove gives the directory above a name the present time, since something came or went there.
func (d disk) touchAbove(name string) {
	if above := d.at(path.Dir(name)); above != nil && above.Type == forecast.Directory {
		changed := *above
		changed.Time = d.now
		d.world.Put(d.device, path.Dir(name), changed)
	}
}

// put sets what stands at a name, with the directories above it.
func (d disk) put(name string, what forecast.Node) {
	if above := path.Dir(name); above != "." && d.at(above) == nil {
		d.put(above, d.directory())
	}
	if d.at(name) == nil {
		d.touchAbove(name)
	}
	d.world.Put(d.device, name, what)
}

func (d disk) directory() forecast.Node {
	return forecast.Node{Type: forecast.Directory, Time: d.now, Mode: usualDirectory}
}

// move moves what stands at a name and below.
func (d disk) move(name, to string) {
	moved := map[string]forecast.Node{}
	for place := range d.world.Names {
		below := &d.world.Names[place]
		if what := below.Disk[d.device]; what != nil && (below.Name == name || strings.HasPrefix(below.Name, name+"/")) {
			moved[to+below.Name[len(name):]] = *what
		}
	}
	d.remove(name)
	for at, what := range moved {
		d.put(at, what)
	}
}

// contentOf gives bytes by the text itself: the forecast needs only to tell which are the same.
func contentOf(text string) forecast.Content {
	return forecast.Content{Size: int64(len(text)), Hash: "of " + text}
}

func textOf(content forecast.Content) string { return strings.TrimPrefix(content.Hash, "of ") }
