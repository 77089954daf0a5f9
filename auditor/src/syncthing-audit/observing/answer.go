package observing

import (
	"io"
	"os"
	"path/filepath"
	"sort"

	"github.com/syncthing/syncthing/lib/protocol"
	"syncthing-audit/answering"
	"syncthing-audit/ask"
	"syncthing-audit/fault"
	"syncthing-audit/finding"
	"syncthing-audit/inputs"
	"syncthing-audit/observe"
	"syncthing-audit/part"
	"syncthing-audit/target"
)

// write writes the parts of all devices that were looked at twice, as far as there is room in one, and gives their files with what their devices were given as.
func (o *observing) write() (map[string]string, error) {
	if o.checkRoom(); len(o.seen()) == 0 {
		return nil, errNothingSeen
	}
	if err := os.MkdirAll(o.room, 0o700); err != nil {
		return nil, fault.Of(err)
	}
	files, seen := map[string]string{}, o.seen()
	for at, device := range o.devices {
		if device == nil {
			continue
		}
		path := filepath.Join(o.room, fileOf(device.ID, seen))
		to, err := target.Of(path)
		if err != nil {
			return nil, err
		}
		if err := to.Write(func(to io.Writer) error {
			return device.Write(to, o.wants(at), o.observer.ID, o.lookID, seen)
		}); err != nil {
			return nil, err
		}
		files[path] = o.addresses[at].given
	}
	return files, nil
}

// seen gives the devices that were looked at twice.
func (o *observing) seen() []*observe.Device {
	seen := []*observe.Device{}
	for _, device := range o.devices {
		if device != nil {
			seen = append(seen, device)
		}
	}
	return seen
}

// checkRoom sees that a part has room for what each device says of its folders and devices. Of one that says more there is no part, and of the others there is.
func (o *observing) checkRoom() {
	seen := o.seen()
	o.each("no part", func(at int) error { return o.devices[at].CheckRoom(o.wants(at), o.observer.ID, o.lookID, seen) })
}

// fileOf gives the name of a device's part: the first letters of its id, by which a person knows it, or all of them where another one's begin alike, as
// whoever makes ids for a while can have it.
func fileOf(id protocol.DeviceID, all []*observe.Device) string {
	const extension = ".part"
	letters := id.String()[:7]
	for _, other := range all {
		if other.ID != id && other.ID.String()[:7] == letters {
			return id.String() + extension
		}
	}
	return letters + extension
}

// leavesOut gives what is left out of the answer: devices that failed on the way, too. What the next look is asked for stays as it is.
func (o *observing) leavesOut() map[string]bool {
	kinds := map[string]bool{part.Absent: len(o.failed) > 0}
	for kind, is := range o.asked.LeaveOut {
		kinds[kind] = kinds[kind] || is
	}
	return kinds
}

// answer joins what was seen of all devices, and tells the answer. A device that failed on the way is left out, which the answer says.
func (o *observing) answer(program ask.Program, files map[string]string, output io.Writer) (int, error) {
	read := o.asked.OfLooks()
	read.LeaveOut = o.leavesOut()
	for path := range files {
		read.Parts = append(read.Parts, path)
	}
	read.Parts = append(read.Parts, o.halves()...)
	sort.Strings(read.Parts)
	opened, err := inputs.Open(read)
	if err != nil {
		return 0, answering.Renamed(err, files)
	}
	defer opened.Close()
	opened.Left = o.left()
	for _, device := range opened.Devices {
		device.From, device.IsUnsigned = files[device.From], false // the devices said all that themselves
	}
	kept, err := answering.Remember(o.asked.History, opened)
	if err != nil {
		return 0, err
	}
	defer kept.Close()
	o.tellWaiting(kept)
	if read.Lines {
		inputs.TellDevices(o.log, opened.Devices)
	}
	answer, err := opened.Audited(read, o.log, func() (*finding.Answer, error) { return answering.Of(opened, read, program) })
	if err != nil {
		return 0, answering.Renamed(err, files)
	}
	for _, folder := range answer.Folders {
		if folder.Live != nil {
			folder.Live.SetStill(o.second.Sub(o.first))
		}
	}
	status, err := kept.Tell(output, o.log, read, answer)
	if err == nil {
		err = o.keepChosen(kept)
	}
	if err == nil && !read.Lines && !read.JSON {
		err = o.printWaiting(output)
	}
	return status, err
}
