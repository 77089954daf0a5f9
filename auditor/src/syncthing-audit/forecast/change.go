package forecast

import (
	"path"
	"strings"
)

// Copied gives a world whose disks may be changed while this one stays as it is.
func (w World) Copied() World {
	world := World{Devices: w.Devices, Names: make([]Name, len(w.Names))}
	for place, name := range w.Names {
		name.Disk = append([]*Node{}, name.Disk...)
		world.Names[place] = name
	}
	return world
}

// At gives what stands at a name on a device's disk, or nothing.
func (w *World) At(device int, name string) *Node {
	if found := w.find(name); found != nil {
		return found.Disk[device]
	}
	return nil
}

func (w *World) find(name string) *Name {
	for place := range w.Names {
		if w.Names[place].Name == name {
			return &w.Names[place]
		}
	}
	return nil
}

// Put sets what stands at a name on a device's disk, with the directories above it.
func (w *World) Put(device int, name string, what Node) {
	if above := path.Dir(name); above != "." && w.find(above) != nil && w.At(device, above) == nil {
		w.Put(device, above, Node{Type: Directory, Mode: usualDirectory})
	}
	found := w.find(name)
	if found == nil {
		count := len(w.Devices)
		added := Name{Name: name, Own: make([]*Record, count), Views: make([][]*Record, count), Disk: make([]*Node, count)}
		for place := range added.Views {
			added.Views[place] = make([]*Record, count)
		}
		w.Names = append(w.Names, added)
		found = &w.Names[len(w.Names)-1]
	}
	found.Disk[device] = &what
}

// PutBelow has stand below a directory on a device's disk what stands below it on another one's, as far as the device can have the names.
func (w *World) PutBelow(device int, name string, from int) {
	for place := range w.Names {
		if below := &w.Names[place]; strings.HasPrefix(below.Name, name+"/") && below.Disk[from] != nil && !below.Bars.Has(device) {
			what := *below.Disk[from]
			below.Disk[device] = &what
		}
	}
}

// HasRoom says whether a device can have a name: its system can, and its disk has nothing but directories above it.
func (w *World) HasRoom(device int, name string) bool {
	if found := w.find(name); found != nil && found.Bars.Has(device) {
		return false
	}
	for above := path.Dir(name); above != "."; above = path.Dir(above) {
		if what := w.At(device, above); what != nil && what.Type != Directory {
			return false
		}
	}
	return true
}

// Remove takes away what stands at a name on a device's disk, and all below it.
func (w *World) Remove(device int, name string) {
	for place := range w.Names {
		if below := &w.Names[place]; below.Name == name || strings.HasPrefix(below.Name, name+"/") {
			below.Disk[device] = nil
		}
	}
}
