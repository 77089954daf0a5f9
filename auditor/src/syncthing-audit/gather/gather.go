// Package gather reads what a device has of its folders, name by name: its index, its views and its disk. Files are hashed
// on the way.
package gather

import (
	"time"

	"github.com/syncthing/syncthing/lib/fs"
	"github.com/syncthing/syncthing/lib/ignore"
	"syncthing-audit/choice"
	"syncthing-audit/device"
	"syncthing-audit/disk"
	"syncthing-audit/part"
	"syncthing-audit/shell"
)

// Folder is where a folder at a device is read from.
type Folder interface {
	Folder() part.Folder
	Disk() fs.Filesystem
	Patterns() (*ignore.Matcher, error)
	Own(names choice.Names, take func(device.Entry) bool) error
	// View gives entries without the hashes of their lists of blocks.
	View(of part.View, names choice.Names, take func(device.Entry) bool) error
	Max() int64   // the greatest sequence of the device's own index, now
	Check() error // whether the index is still the one that is read
}

// Device is a device that is to be read.
type Device struct {
	ID, Name string
	Runs     string // the version of Syncthing that was started there last
	Index    *part.Index
	Newer    *part.Newer
	ToRepair bool     // whether Syncthing is to repair its index
	Folders  []Folder // rising by id
	Names    choice.Names
	Bytes    bool // the bytes of files, too, in memory alone
	Paths    bool // the absolute paths of this machine, too
	Pool     *disk.Pool
	Look     *part.Look // of a device that may run
	Others   []part.Other
	Rest     map[string]*part.Rest // of a second look, by folder
}

// Head gives the head of the device's part.
func (d *Device) Head() *part.Head {
	head := &part.Head{Device: d.ID, Name: d.Name, Runs: d.Runs, Made: time.Now().UTC().Truncate(time.Second),
		Names: d.Names, Folders: []part.Folder{}, Look: d.Look, Index: d.Index, Newer: d.Newer, ToRepair: d.ToRepair, Others: append([]part.Other{}, d.Others...)}
	head.Version = head.DueVersion()
	for _, of := range d.Folders {
		folder := of.Folder()
		folder.Rest = d.Rest[folder.ID]
		head.Folders = append(head.Folders, folder)
	}
	if !d.Paths {
		hidePaths(head)
	}
	return head
}

// Run reads all folders and gives the lines behind the head.
func (d *Device) Run(head *part.Head, sink part.Sink) error {
	for place, folder := range d.Folders {
		about := &head.Folders[place]
		if err := sink(part.Line{Begin: &part.Begin{Folder: about.ID}}); err != nil {
			return err
		}
		end := &part.End{Folder: about.ID, Last: place == len(d.Folders)-1}
		if err := d.names(folder, about, end, sink); err != nil {
			return shell.Labelled(err, about.ID, about.Label)
		}
		if err := folder.Check(); err != nil {
			return err
		}
		end.Max = folder.Max()
		if err := sink(part.Line{End: end}); err != nil {
			return err
		}
	}
	return nil
}

// names gives the names of a folder. One routine finds them and has their files hashed; this one waits for the hashes, in
// the order of names.
func (d *Device) names(folder Folder, about *part.Folder, end *part.End, sink part.Sink) error {
	patterns, err := folder.Patterns()
	if err != nil {
		return err
	}
	path := ""
	if !d.Paths {
		path = folder.Folder().Path
	}
	found := disk.NewQueue()
	merging := newMerge(d, folder, about, patterns, found)
	go func() { found.End(merging.run()) }()
	defer found.Stop()
	isOver, err := found.Drain(path, end, sink)
	if isOver {
		merging.tellEnd(end)
	}
	return err
}
