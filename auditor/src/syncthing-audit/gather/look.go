package gather

import (
	"io"
	"os"

	"syncthing-audit/adapt"
	"syncthing-audit/bep"
	"syncthing-audit/disk"
	"syncthing-audit/glance"
	"syncthing-audit/leftover"
	"syncthing-audit/shell"
)

// isSecondLook says whether the files aren't hashed.
func (d *Device) isSecondLook() bool { return d.Look != nil && d.Look.IsSecond() }

// walker gives what walks a folder's directory.
func (d *Device) walker(folder Folder) *disk.Walker {
	return &disk.Walker{Disk: adapt.Directory(folder.Disk()), Folder: folder.Folder().ID, Names: d.Names, Stamps: d.Look != nil}
}

// Glance walks all folders.
func (d *Device) Glance() (*glance.Glance, error) {
	taken := &glance.Glance{}
	for _, folder := range d.Folders {
		file, err := leftover.Unnamed()
		if err != nil {
			taken.Close()
			return nil, err
		}
		taken.Folders = append(taken.Folders, file)
		if err := d.walkInto(file, folder); err != nil {
			taken.Close()
			about := folder.Folder()
			return nil, shell.Labelled(err, about.ID, about.Label)
		}
	}
	return taken, nil
}

// walkInto writes the names of a folder and their marks into a file, and goes back to its begin.
func (d *Device) walkInto(file *os.File, folder Folder) error {
	patterns, err := folder.Patterns()
	if err != nil {
		return err
	}
	to := glance.NewWriter(file)
	walker := d.walker(folder)
	walker.Take = func(found disk.Found) error {
		isIgnored := patterns.Match(found.Name).IsIgnored()
		if isIgnored && (patterns.SkipIgnoredDirs() || found.Node == nil || found.Node.Type != bep.Directory) {
			return nil
		}
		return to.Take(found, isIgnored)
	}
	if err = walker.Walk(); err == nil {
		err = to.Flush()
	}
	if err == nil {
		_, err = file.Seek(0, io.SeekStart)
	}
	return err
}
