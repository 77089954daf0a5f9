package summary

import (
	"fmt"

	"golang.org/x/exp/slices"
	"syncthing-audit/part"
	"syncthing-audit/print"
	"syncthing-audit/shell"
)

// goes gives the content that goes at a device with a fault: of a file that was renamed, another name comes with it.
func (f *Fault) goes() []part.Content {
	if f.Cause == Missing || f.Cause == Behind && f.Deletion {
		return f.ownContent()
	}
	return nil
}

// comes gives the contents that come with it.
func (f *Fault) comes() []part.Content {
	switch {
	case f.Cause == NotScanned:
		return f.onDisk()
	case f.Cause == Behind && len(f.ownContent()) == 0 && f.due != nil && f.due.Content != nil:
		return []part.Content{*f.due.Content}
	}
	return nil
}

// ownContent gives the content that the device recorded, and onDisk those that its disk may have.
func (f *Fault) ownContent() []part.Content {
	if f.at == nil || f.at.Own == nil || f.at.Own.Content == nil {
		return nil
	}
	return []part.Content{*f.at.Own.Content}
}

func (f *Fault) onDisk() []part.Content {
	if f.at == nil || f.at.Disk == nil {
		return nil
	}
	return f.at.Disk.Contents
}

// link links each two names of which the one goes at a device and the other comes there with the same bytes: renamed, as it
// seems. Empty files are alike without that.
func link(files []*File) {
	going := map[string]*File{}
	key := func(device string, content part.Content) string { return fmt.Sprint(device, content) }
	for _, file := range files {
		for _, fault := range file.Faults {
			for _, content := range fault.goes() {
				if at := key(fault.Device, content); content.Size > 0 && going[at] == nil {
					going[at] = file
				}
			}
		}
	}
	for _, file := range files {
		for _, fault := range file.Faults {
			for _, content := range fault.comes() {
				from := going[key(fault.Device, content)]
				if from != nil && from != file && file.RenamedFrom == "" && from.RenamedTo == "" {
					file.RenamedFrom, from.RenamedTo = from.Name, file.Name
				}
			}
		}
	}
}

// elsewhere is another name under which the bytes of a name stand, and which is to be deleted there.
type elsewhere struct {
	name   Text
	device string
}

// going has bytes that stand on some disk under a name that goes there.
type going map[part.Content]*elsewhere

// add adds those of a name.
func (g going) add(file *File) {
	for _, fault := range file.Faults {
		for _, content := range fault.goes() {
			if content.Size > 0 && g[content] == nil && slices.Contains(fault.onDisk(), content) {
				g[content] = &elsewhere{file.Name, fault.Device}
			}
		}
	}
}

// of gives where the bytes of a name stand that no audited device has as recorded: what it was renamed from, say.
func (g going) of(file *File) *elsewhere {
	if content := file.dueContent(); content != nil && file.isWithoutCopy() {
		return g[*content]
	}
	return nil
}

// advice says to save that, since a pull may take it away, and where it is to go.
func (e *elsewhere) advice(of *File, named print.Names) string {
	on := []string{}
	for _, fault := range of.Faults {
		if of.isHarmOfDue(fault) {
			on = print.AddOnce(on, fault.Device)
		}
	}
	return "before Syncthing starts on any of these devices, copy " + shell.Path(string(e.name)) + " of " + named(e.device) + " elsewhere: it has what is recorded here, and is to be deleted. " +
		"Then copy that to " + named.All(on) + " under this name, with its time (cp --preserve=timestamps), while Syncthing is stopped there"
}

// renamed prints from what or to what a name was renamed, as it seems.
func (p *printer) renamed(file *File) {
	if file.RenamedFrom != "" {
		p.Line("  it seems to be renamed from %s: the recorded bytes are the same", shell.Path(string(file.RenamedFrom)))
	}
	if file.RenamedTo != "" {
		p.Line("  it seems to be renamed to %s: the recorded bytes are the same", shell.Path(string(file.RenamedTo)))
	}
}
