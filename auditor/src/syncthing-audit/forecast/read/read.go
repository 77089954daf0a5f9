// Package read makes a world of what all devices that share a folder have of its names.
package read

import (
	"errors"
	"fmt"
	"io"

	"syncthing-audit/forecast"
	"syncthing-audit/part"
)

// World makes a world of parts of one folder, for the tests on real devices (forecast/cmd). Devices stand in the order of the parts.
func World(parts []part.Stream, folder string) (forecast.World, error) {
	r := newReader(folder, len(parts))
	for place, from := range parts {
		r.places[from.Head().Device] = place
	}
	for place, from := range parts {
		device, err := r.device(from.Head())
		if err != nil {
			return forecast.World{}, err
		}
		r.world.Devices = append(r.world.Devices, device)
		if err := r.take(place, from); err != nil {
			return forecast.World{}, err
		}
	}
	r.finish()
	return r.world, nil
}

type reader struct {
	folder string
	count  int
	places map[string]int
	names  map[string]*forecast.Name
	same   map[forecast.Content]forecast.Content // bytes that are cut in another way
	world  forecast.World
}

func newReader(folder string, count int) reader {
	return reader{folder: folder, count: count, names: map[string]*forecast.Name{}, places: map[string]int{}, same: map[forecast.Content]forecast.Content{}}
}

var kinds = map[string]forecast.Kind{"send-receive": forecast.SendReceive, "send-only": forecast.SendOnly, "receive-only": forecast.ReceiveOnly}

// usualMaxConflicts is Syncthing's default.
const usualMaxConflicts = 10

func (r *reader) device(head *part.Head) (forecast.Device, error) {
	folder := head.Folder(r.folder)
	if folder == nil {
		return forecast.Device{}, fmt.Errorf("the part of %s has no folder %q", head.Device, r.folder)
	}
	kind, is := kinds[folder.Kind]
	if !is {
		return forecast.Device{}, fmt.Errorf("the model knows no folder of kind %q", folder.Kind)
	}
	device := forecast.Device{ID: head.Device, Kind: kind, Release: forecast.ReleaseOf(head.Runs), Number: head.Number(), IgnorePermissions: folder.IgnoresPermissions,
		MaxConflicts: usualMaxConflicts, TimeWindow: folder.TimeWindow * 1e9}
	if folder.Options != nil {
		device.MaxConflicts, device.IgnoreDelete, device.Versions = folder.Options.MaxConflicts, folder.Options.IgnoresDeletions, versionsOf(folder.Options.Versions)
	}
	return device, nil
}

func versionsOf(told *part.Versions) forecast.Versions {
	switch {
	case told == nil:
		return forecast.VersionsUntold
	case told.AreKept():
		return forecast.VersionsKept
	case told.Kind == part.VersionsExternal:
		return forecast.VersionsExternal
	}
	return forecast.VersionsNone
}

// take takes the names of one part.
func (r *reader) take(place int, from part.Stream) error {
	within := false
	views := from.Head().Folder(r.folder).Views
	for {
		line, err := from.Next()
		if errors.Is(err, io.EOF) {
			return nil
		}
		if err != nil {
			return err
		}
		if line.Begin != nil {
			within = line.Begin.Folder == r.folder
		}
		if within && line.Name != nil {
			r.takeName(place, line.Name, views)
		}
	}
}

func (r *reader) name(text string) *forecast.Name {
	name := r.names[text]
	if name == nil {
		name = &forecast.Name{Name: text, Own: make([]*forecast.Record, r.count), Views: make([][]*forecast.Record, r.count), Disk: make([]*forecast.Node, r.count)}
		for place := range name.Views {
			name.Views[place] = make([]*forecast.Record, r.count)
		}
		r.names[text] = name
	}
	return name
}

func (r *reader) takeName(place int, line *part.Name, views []part.View) {
	name := r.name(string(line.Name))
	if line.Own != nil {
		name.Own[place] = record(line.Own)
		if own := name.Own[place]; own.Flag == forecast.Invalid {
			own.Flag, own.Version = forecast.LocalChange, version(line.Own.Local)
		}
	}
	for _, seen := range line.Views {
		if at, is := r.places[views[seen.View].Device]; is {
			name.Views[place][at] = record(seen.Record)
		}
	}
	if line.Disk != nil {
		name.Disk[place] = r.node(line.Disk)
	}
}

func record(of *part.Record) *forecast.Record {
	record := &forecast.Record{Type: typeOf(of.Type), Deleted: of.Deleted, Version: version(of.Version), Time: of.ModifiedS*1e9 + int64(of.ModifiedNs),
		Target: of.Target, Mode: forecast.NoMode}
	if of.Invalid {
		record.Flag = forecast.Invalid
	}
	if of.Permissions != nil {
		record.Mode = int(*of.Permissions & 0o777)
	}
	if of.Content != nil {
		record.Content = content(of.Content)
	}
	return record
}

func version(pairs part.Version) []forecast.Counter {
	var counters []forecast.Counter
	for _, pair := range pairs {
		counters = append(counters, forecast.Counter{Device: pair[0], Value: pair[1]})
	}
	return counters
}

func content(of *part.Content) forecast.Content {
	return forecast.Content{Size: of.Size, Hash: of.Hash.String()}
}

func typeOf(number int) forecast.Type {
	switch number {
	case 0:
		return forecast.File
	case 1:
		return forecast.Directory
	}
	return forecast.Symlink
}

func (r *reader) node(of *part.Node) *forecast.Node {
	node := &forecast.Node{Type: typeOf(of.Type), Time: of.ModifiedS*1e9 + int64(of.ModifiedNs), Target: of.Target, Mode: int(of.Permissions & 0o777)}
	for place := range of.Contents {
		cut := content(&of.Contents[place])
		if place == 0 {
			node.Content = cut
		} else {
			r.join(node.Content, cut)
		}
	}
	return node
}

// join notes that two contents are of the same bytes.
func (r *reader) join(a, b forecast.Content) {
	if a, b = r.root(a), r.root(b); a != b {
		r.same[b] = a
	}
}

func (r *reader) root(of forecast.Content) forecast.Content {
	for {
		next, is := r.same[of]
		if !is {
			return of
		}
		of = next
	}
}

// finish gives the same bytes the same content everywhere.
func (r *reader) finish() {
	for _, name := range r.names {
		if name == nil {
			continue
		}
		for place := range name.Own {
			for _, record := range append([]*forecast.Record{name.Own[place]}, name.Views[place]...) {
				if record != nil {
					record.Content = r.root(record.Content)
				}
			}
			if name.Disk[place] != nil {
				name.Disk[place].Content = r.root(name.Disk[place].Content)
			}
		}
		r.world.Names = append(r.world.Names, *name)
	}
}
