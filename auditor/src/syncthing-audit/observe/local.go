package observe

import (
	"sort"
	"strconv"
	"strings"

	"github.com/syncthing/syncthing/lib/protocol"
	"syncthing-audit/device"
	"syncthing-audit/part"
)

// mostLocal is of how many local changes of a folder a device's own Syncthing is asked. What comes of further ones isn't known.
const mostLocal = 1000

// AskLocal asks for the versions of the local changes of a device that only receives: they are sent without. These are the devices that are known. What a
// name has under another sequence by now, or with a device that isn't known, isn't taken.
func (f *Folder) AskLocal(known []protocol.DeviceID, ask func(folder, name string) (int64, []string, error)) error {
	sequences := map[string]int64{}
	err := f.index.Each(func(entry device.Entry) error {
		if entry.Record != nil && isLocalChange(entry.Record) && len(sequences) < mostLocal {
			sequences[entry.Name] = entry.Record.Sequence
		}
		return nil
	})
	if err != nil {
		return err
	}
	devices := f.devicesByLetters(known)
	f.locals = map[string]part.Version{}
	for name, due := range sequences {
		sequence, counters, err := ask(f.ID(), name)
		if err != nil {
			return err
		}
		if version := versionOf(counters, devices); version != nil && sequence == due {
			f.locals[name] = version
		}
	}
	return nil
}

// lettersOfShort is how many letters of a device's id Syncthing writes for it in a version.
const lettersOfShort = 7

// devicesByLetters gives the numbers of the devices that are known, by the first letters of their ids; 0 where two begin alike.
func (f *Folder) devicesByLetters(known []protocol.DeviceID) map[string]uint64 {
	all := append([]protocol.DeviceID{f.of}, known...)
	for _, sharing := range f.said.Devices {
		all = append(all, sharing.Device)
	}
	numbers := map[string]uint64{}
	for _, id := range all {
		letters, number := id.String()[:lettersOfShort], part.Number(id.String())
		if had, is := numbers[letters]; is && had != number {
			number = 0
		}
		numbers[letters] = number
	}
	return numbers
}

// versionOf reads a version; nothing where it isn't understood.
func versionOf(counters []string, devices map[string]uint64) part.Version {
	version := part.Version{}
	for _, counter := range counters {
		letters, text, _ := strings.Cut(counter, ":")
		value, err := strconv.ParseUint(text, 10, 63)
		if err != nil || value == 0 || devices[letters] == 0 {
			return nil
		}
		version = append(version, [2]uint64{devices[letters], value})
	}
	sort.Slice(version, func(a, b int) bool { return version[a][0] < version[b][0] })
	for place := range version {
		if place > 0 && version[place-1][0] == version[place][0] {
			return nil
		}
	}
	if len(version) == 0 {
		return nil
	}
	return version
}

// withLocal gives a record with the version that its device's own index has, where that is known.
func (f *Folder) withLocal(entry device.Entry) *part.Record {
	version, is := f.locals[entry.Name]
	if !is { // of a name that has no record there is none
		return entry.Record
	}
	record := *entry.Record
	record.Local = version
	return &record
}
