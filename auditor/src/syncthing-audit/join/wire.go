package join

import (
	"strings"

	"github.com/syncthing/syncthing/lib/fs"
	"golang.org/x/exp/slices"
	"syncthing-audit/part"
	"syncthing-audit/shell"
)

// Unseen counts what isn't seen over the wire of a member, and what a row takes to be as the device recorded it.
type Unseen struct {
	Standing int64 `json:",omitempty"` // directories and symlinks
	Unread   int64 `json:",omitempty"` // files whose bytes weren't asked for
}

// fill gives members that were seen over the wire what others' indexes tell of their views, and what their own records tell of what isn't seen.
func (f *Folder) fill(row *Row) {
	for place := range f.Members {
		if f.Members[place].Head.IsOverWire() {
			f.fillViews(row, place)
		}
	}
	for place := range f.Members {
		if f.Members[place].Head.IsOverWireAlone() && row.At[place] != nil {
			f.Members[place].fillDisk(row.At[place])
		}
	}
}

// fillViews gives a member the records that it has of others. An index is sent in the order of its sequences, and without gaps. So what a member
// has of another's index is that index up to the sequence that it names. What it had of a name before a record behind that isn't known: the
// name isn't heard of there (IsUnheard).
func (f *Folder) fillViews(row *Row, member int) {
	if at := row.At[member]; at != nil && len(at.Out)+len(at.Moved) > 0 || f.Members[member].dropsFromOthers(row.Name) {
		return
	}
	for place, view := range f.Members[member].About.Views {
		of := f.Member(view.Device)
		if of < 0 || row.At[of] == nil || row.At[of].Own == nil {
			continue
		}
		own := row.At[of].Own
		if f.Members[of].About.IndexID != view.IndexID || own.Sequence > view.Max {
			continue
		}
		if row.At[member] == nil {
			row.At[member] = f.Members[member].namedByOthers(row.Name)
		}
		record := *own
		record.Local = nil // it isn't sent
		row.At[member].Views = append(row.At[member].Views, part.Seen{View: place, Record: &record})
	}
}

// dropsFromOthers says whether a member's Syncthing drops a name from others' indexes: on Windows one with a backslash has no path.
func (m *Member) dropsFromOthers(name string) bool {
	return m.isWindows() && strings.Contains(name, `\`)
}

func (m *Member) isWindows() bool { return m.Head.Half != nil && m.Head.Half.IsWindows() }

// CanHave says whether a member's system can have a name.
func (m *Member) CanHave(name string) bool { return !m.isWindows() || IsOfWindows(name) }

// IsOfWindows says whether Windows can have a name: neither `a:b` nor `aux.txt`, say. Syncthing there takes no other names from others.
func IsOfWindows(name string) bool {
	return !strings.Contains(name, `\`) && fs.WindowsInvalidFilename(strings.ReplaceAll(name, "/", `\`)) == nil
}

// countBarred counts a name that stands on others' disks, and that the member's system can't have.
func (m *Member) countBarred(row *Row) {
	isThere := func(at *part.Name) bool { return at != nil && at.Disk != nil }
	if !m.CanHave(row.Name) && slices.IndexFunc(row.At, isThere) >= 0 {
		m.Barred++
	}
}

// namedByOthers gives a name that a member has in its views alone. Where the member's patterns are known, they may keep it out of the folder there.
func (m *Member) namedByOthers(name string) *part.Name {
	told := &part.Name{Name: part.Bytes(name)}
	if stream, is := m.Stream.(interface{ IsIgnored(name string) bool }); is && stream.IsIgnored(name) {
		told.Out = []part.LeftOut{{Kind: part.Ignored, Why: part.WhyIgnored}}
	}
	return told
}

// fillDisk gives a name of what isn't seen of its disk what is recorded there. What is seen and isn't as recorded waits for a scan, as at each device
// that is looked at while it runs.
func (m *Member) fillDisk(name *part.Name) {
	own := name.Own
	if len(name.Out)+len(name.Moved) > 0 {
		return
	}
	if own != nil && !own.Deleted && name.Disk == nil && (own.Content == nil || m.Head.IsOfRecords() || name.NotRead) {
		name.Disk = m.asRecorded(own)
	} else if own != nil && own.Content != nil && name.Disk != nil {
		disk := *name.Disk
		disk.ModifiedS, disk.ModifiedNs, disk.Permissions = own.ModifiedS, own.ModifiedNs, permissionsOf(own)
		name.Disk = &disk
	}
	if !name.IsAsRecorded(0) {
		waits := *name
		waits.Views = nil
		*name = part.Name{Name: name.Name, Moved: []string{part.MovedUnscanned}, Waits: &waits}
	}
}

// asRecorded gives what is recorded of a name in place of what stands on the disk, which isn't seen.
func (m *Member) asRecorded(own *part.Record) *part.Node {
	node := &part.Node{Type: own.Type, ModifiedS: own.ModifiedS, ModifiedNs: own.ModifiedNs, Target: own.Target, Permissions: permissionsOf(own)}
	if own.Content == nil {
		m.Unseen.Standing++
		return node
	}
	m.Unseen.Unread++
	node.Size, node.Contents = own.Content.Size, []part.Content{*own.Content}
	return node
}

func permissionsOf(own *part.Record) uint32 {
	if own.Permissions == nil {
		return 0
	}
	return *own.Permissions
}

// in gives the device as it is seen in a folder. Of several that were asked over the wire each index may have gone back by itself.
func (d *Device) in(folder *part.Folder) *Device {
	if d.Head.Wire == nil || len(d.Head.Folders) < 2 || d.Head.Wire.WentBackFrom == folder.WentBackFrom {
		return d
	}
	device, head, wire := *d, *d.Head, *d.Head.Wire
	wire.WentBackFrom = folder.WentBackFrom
	head.Wire = &wire
	device.Head = &head
	return &device
}

// kindWithout gives the kind of what is left out where a device's part is without a folder that another one shares with it.
func (d *Device) kindWithout(folder string) string {
	without := d.Head.WhyWithout(folder)
	switch {
	case without != nil && without.IsEncrypted:
		return part.Encrypted
	case d.Head.IsOverWire(): // nobody knows whether it shares the folder with others
		return part.Absent
	}
	return part.Unshared
}

// whyUnseen says why an observer has nothing of a folder at a device.
func (d *Device) whyUnseen(folder string) string {
	if without := d.Head.WhyWithout(folder); without != nil {
		return shell.Printable(without.Why)
	}
	return "it doesn't share the folder with the observer"
}

// observers gives the devices that made parts over the wire. They share the folders, and keep none of their files. A part's word makes no observer of a
// device that is seen to keep files: nobody would miss that one's part.
func observers(devices []*Device, known []string) map[string]bool {
	ids := map[string]bool{}
	for _, id := range known {
		ids[id] = true
	}
	for _, device := range devices {
		if wire := device.Head.Wire; wire != nil && !keepsFiles(devices, wire.Observer) {
			ids[wire.Observer] = true
		}
	}
	return ids
}

// keepsFiles says whether a device has a part, or another one has records of it. An observer has none, and sends none.
func keepsFiles(devices []*Device, id string) bool {
	for _, device := range devices {
		if device.Head.Device == id {
			return true
		}
		for _, folder := range device.Head.Folders {
			if slices.IndexFunc(folder.Views, func(view part.View) bool { return view.Device == id && view.Max > 0 }) >= 0 {
				return true
			}
		}
	}
	return false
}

// Observer is a device that shares a folder and keeps no files of it.
type Observer struct {
	Folder string `json:"folder"`
	Device string `json:"device"`
	Name   string `json:"name"`
}

// takeOutObservers takes observers out of what the devices say of each other: nobody asks for an observer's part, and it has none. It gives those that
// the devices name without having been asked by them over the wire.
func takeOutObservers(devices []*Device, known []string) []Observer {
	all := observers(devices, known)
	if len(all) == 0 {
		return nil
	}
	taken := []Observer{}
	for _, device := range devices {
		for place := range device.Head.Folders {
			folder := &device.Head.Folders[place]
			kept := make([]part.Sharing, 0, len(folder.Sharing))
			for _, other := range folder.Sharing {
				if !all[other.Device] {
					kept = append(kept, other)
				} else if isNew := slices.IndexFunc(taken, func(had Observer) bool { return had.Folder == folder.ID && had.Device == other.Device }) < 0; isNew {
					taken = append(taken, Observer{folder.ID, other.Device, other.Name})
				}
			}
			folder.Sharing = kept
			folder.PausedDevices = slices.Clip(without(folder.PausedDevices, all))
		}
		for place := range device.Head.Others {
			device.Head.Others[place].Devices = without(device.Head.Others[place].Devices, all)
		}
	}
	return taken
}

// without gives the devices but for these.
func without(devices []string, out map[string]bool) []string {
	if len(devices) == 0 {
		return devices
	}
	left := []string{}
	for _, device := range devices {
		if !out[device] {
			left = append(left, device)
		}
	}
	return left
}
