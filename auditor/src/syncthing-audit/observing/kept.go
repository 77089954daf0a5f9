package observing

import (
	"crypto/sha256"
	"encoding/hex"
	"path/filepath"

	"github.com/syncthing/syncthing/lib/protocol"
	"syncthing-audit/fault"
	"syncthing-audit/leftover"
	"syncthing-audit/observe"
	"syncthing-audit/outside"
	"syncthing-audit/shell"
	"syncthing-audit/wire"
)

// open makes room for what is found, and says what the first looks ask of their devices.
func (o *observing) open() error {
	found, err := leftover.Directory()
	if err != nil {
		return err
	}
	o.found = found
	for _, address := range o.addresses {
		o.looks[address.id] = wire.Look{Folders: o.asked.Folders, Kept: o.keeperOf(address.id), Passwords: o.asked.Passwords}
	}
	return nil
}

// keeperOf gives what opens the indexes that are kept of a device. Another run that looks at one of them keeps this one from that.
func (o *observing) keeperOf(id protocol.DeviceID) wire.Keeper {
	return func(folder string) (*wire.Index, error) {
		o.mutex.Lock()
		defer o.mutex.Unlock()
		if kept := o.kept[id][folder]; kept != nil {
			return kept.Next(), nil
		}
		kept, err := observe.OpenKept(directoryOfKept(o.asked.Homes[0], folder, id))
		if err != nil {
			return nil, err
		}
		if damage := kept.Damage(); damage != nil {
			outside.Printf(o.log, "syncthing-audit: what the last run kept of folder %s at %s is damaged, and isn't used: whether its index went back since isn't known (%v)\n",
				shell.Quoted(folder), id, damage)
		}
		if o.kept[id] == nil {
			o.kept[id] = map[string]*observe.Kept{}
		}
		o.kept[id][folder] = kept
		return kept.Next(), nil
	}
}

// keptOf gives what is kept of a folder at a device.
func (o *observing) keptOf(id protocol.DeviceID, folder string) *observe.Kept {
	o.mutex.Lock()
	defer o.mutex.Unlock()
	return o.kept[id][folder]
}

// directoryOfKept gives the directory in which the index of a folder at a device is kept.
func directoryOfKept(home, folder string, id protocol.DeviceID) string {
	sum := sha256.Sum256(append(id[:], folder...))
	return filepath.Join(home, "indexes", hex.EncodeToString(sum[:16]))
}

// lookSince gives what the second look asks of a device: what came since the first one, in indexes of their own.
func (o *observing) lookSince(device *observe.Device) wire.Look {
	look := wire.Look{Passwords: o.asked.Passwords}
	for _, folder := range device.Folders {
		look.Folders = append(look.Folders, folder.ID())
	}
	look.Kept = func(folder string) (*wire.Index, error) {
		o.mutex.Lock()
		defer o.mutex.Unlock()
		since, err := device.Since(o.found, folder)
		if err == nil {
			o.since = append(o.since, since)
		}
		return since, err
	}
	return look
}

// finish puts the indexes that were taken in place of those of the last run.
func (o *observing) finish() error {
	for _, device := range o.devices {
		if device == nil {
			continue
		}
		for _, folder := range device.Folders {
			kept := o.kept[device.ID][folder.ID()]
			delete(o.kept[device.ID], folder.ID())
			if err := kept.Finish(); err != nil {
				return fault.Of(err)
			}
		}
	}
	return nil
}

// keepAddresses keeps where the devices were reached that were looked at twice, and of which folders.
func (o *observing) keepAddresses(kept *observe.Addresses) error {
	for at, address := range o.addresses {
		if o.devices[at] == nil {
			continue
		}
		for _, folder := range o.devices[at].Folders {
			kept.Add(folder.ID(), address.id.String(), address.where)
		}
	}
	return fault.Of(kept.Keep())
}
