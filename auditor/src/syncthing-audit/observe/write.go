package observe

import (
	"fmt"
	"io"
	"path/filepath"

	"github.com/syncthing/syncthing/lib/protocol"
	"syncthing-audit/budget"
	"syncthing-audit/device"
	"syncthing-audit/part"
)

// Write writes the device's part. Look is the id of all looks of this run, and devices are all that were looked at.
func (d *Device) Write(to io.Writer, asked Asked, observer protocol.DeviceID, look string, devices []*Device) error {
	head := d.head(asked, observer, look, devices)
	writer, err := part.NewWriter(to, head)
	if err != nil {
		return err
	}
	if err := d.lines(asked, head, writer.Take); err != nil {
		return err
	}
	return writer.Close()
}

// CheckRoom says why no part has room for what the device says of its folders and devices.
func (d *Device) CheckRoom(asked Asked, observer protocol.DeviceID, look string, devices []*Device) error {
	return d.head(asked, observer, look, devices).CheckRoom()
}

// lines gives the lines of a part to take.
func (d *Device) lines(asked Asked, head *part.Head, take part.Sink) error {
	for place, folder := range d.Folders {
		if err := folder.lines(asked, head.Folders[place].Max, place == len(d.Folders)-1, take); err != nil {
			return err
		}
	}
	return nil
}

// lines gives the lines of a folder to take.
func (f *Folder) lines(asked Asked, highest int64, isLast bool, take part.Sink) error {
	id, names := f.ID(), int64(0)
	if err := take(part.Line{Begin: &part.Begin{Folder: id}}); err != nil {
		return err
	}
	err := f.each(asked, func(line *part.Name) error {
		names++
		return take(part.Line{Name: line})
	})
	if err != nil {
		return err
	}
	return take(part.Line{End: &part.End{Folder: id, Names: names, Bytes: f.bytes, Max: highest, Last: isLast}})
}

// each gives the lines of all names that were asked for, in the order of a part: names that are too long for one stand behind all others, by their hashes.
// A device may send any number of these, so they are kept beside what was found until then.
func (f *Folder) each(asked Asked, take func(*part.Name) error) error {
	var long *disks
	err := f.eachEntry(func(entry device.Entry) error {
		switch {
		case !asked.Names.Has(f.ID(), entry.Name):
			return nil
		case part.IsLongName(entry.Name):
			return f.keepLong(&long, entry.Name)
		}
		line, err := f.line(asked, entry)
		if err == nil {
			err = take(line)
		}
		return err
	})
	if long == nil {
		return err
	}
	defer long.close()
	if err != nil {
		return err
	}
	return long.each(func(name string, out *part.LeftOut) error {
		return take(&part.Name{Name: part.Bytes(name), Out: []part.LeftOut{*out}})
	})
}

// keepLong keeps a name that is too long for a part among others.
func (f *Folder) keepLong(to **disks, name string) (err error) {
	if *to == nil {
		if *to, err = newDisks(filepath.Dir(f.disks.directory)); err != nil {
			return err
		}
	}
	why := fmt.Sprintf("its name has %d bytes, or begins with bytes that stand before hashes in a part", len(name))
	return (*to).put(string(part.HiddenLongName(f.ID(), name).Bytes()), disk{Out: &part.LeftOut{Kind: part.OddName, Why: why}})
}

// eachEntry gives what the index of the first look has, and between these, by their names alone, what came between the looks, rising. A device may send
// any number of such names, so they are read one by one.
func (f *Folder) eachEntry(take func(device.Entry) error) error {
	news := f.since.Names()
	takeNews := func(isBefore func(name string) bool) error {
		for name, is := news.Name(); is && isBefore(name); name, is = news.Name() {
			if err := take(device.Entry{Name: name}); err != nil {
				return err
			}
			news.Next()
		}
		return nil
	}
	err := f.index.Each(func(entry device.Entry) error {
		if err := takeNews(func(name string) bool { return name < entry.Name }); err != nil {
			return err
		}
		if name, is := news.Name(); is && name == entry.Name { // it came again
			news.Next()
		}
		return take(entry)
	})
	if err == nil {
		err = takeNews(func(string) bool { return true })
	}
	if failed := news.Close(); err == nil {
		err = failed
	}
	return err
}

// line gives what was seen of a name.
func (f *Folder) line(asked Asked, entry device.Entry) (*part.Name, error) {
	name := &part.Name{Name: part.Bytes(entry.Name)}
	_, isMoved, err := f.since.Get(entry.Name)
	if err != nil {
		return nil, err
	}
	if isMoved {
		name.Moved = []string{part.MovedRecord}
		return name, nil
	}
	found, isRead, err := f.disks.get(entry.Name)
	if err != nil {
		return nil, err
	}
	name.Differ = f.differ[entry.Name]
	name.NotRead = !isRead && asked.Chosen != nil && budget.HasBytes(entry)
	if found.Out != nil && found.Out.Kind == part.Ignored {
		name.Out = []part.LeftOut{*found.Out}
		return name, nil
	}
	name.Own, name.Disk = f.withLocal(entry), found.Node
	for _, out := range []*part.LeftOut{entry.Out, found.Out, outOfInvalid(entry.Record)} {
		if out != nil {
			name.Out = append(name.Out, *out)
		}
	}
	return name, nil
}
