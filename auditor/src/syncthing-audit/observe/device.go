// Package observe makes parts of devices that are asked over the wire: their records, and what stands on their disks where files are recorded.
package observe

import (
	"context"
	"errors"
	"fmt"
	"os"
	"sort"
	"time"

	"github.com/syncthing/syncthing/lib/protocol"
	"syncthing-audit/budget"
	"syncthing-audit/choice"
	"syncthing-audit/part"
	"syncthing-audit/wire"
)

// Asked says what is asked of devices.
type Asked struct {
	Names   choice.Names
	Records bool   // records alone, and no bytes
	Room    string // a directory for what is found

	Chosen *budget.Plan // the names whose bytes are asked for; nothing where all are
}

// Device is what an observer has seen of a device.
type Device struct {
	ID      protocol.DeviceID
	Hello   wire.Hello
	Half    string           // the id of the walk of its disks, which has what stands there; nothing where none was awaited
	Folders []*Folder        // rising by id
	Out     map[string]error // why others that were asked for weren't looked at, by their ids

	room  string    // a directory for what came between the looks
	first time.Time // when the first look was over
	again time.Time // when the second look began
}

// errWentBack says that an index isn't the one of the first look.
var errWentBack = errors.New("its index was made anew or went back between the looks: look again")

// Begin begins the first look at a device on a connection: it takes all its indexes, which go into the next ones that are kept.
func Begin(ctx context.Context, connection *wire.Connection, kept func(folder string) *Kept, room string) (*Device, error) {
	device := &Device{ID: connection.Device, Hello: connection.Hello, Out: map[string]error{}}
	for id, why := range connection.Out {
		device.Out[id] = why
	}
	for _, shared := range connection.Folders {
		if err := device.beginFolder(ctx, shared, kept(shared.ID), room); err != nil {
			device.Close()
			return nil, inFolder(shared.ID, err)
		}
	}
	if len(device.Folders) == 0 {
		return nil, device.whyNone()
	}
	return device, nil
}

// beginFolder begins the first look at a folder. Of one that is encrypted there, and of which no password is given, names and bytes are counted.
func (d *Device) beginFolder(ctx context.Context, shared *wire.Shared, kept *Kept, room string) error {
	if shared.IsSealed() {
		why, err := countSealed(ctx, shared)
		d.Out[shared.ID] = why
		return err
	}
	folder, err := beginFolder(ctx, shared, kept, room, d.ID)
	if err == nil {
		d.Folders = append(d.Folders, folder)
	}
	return err
}

// whyNone says why nothing is seen of the device.
func (d *Device) whyNone() error {
	ids := []string{}
	for id := range d.Out {
		ids = append(ids, id)
	}
	sort.Strings(ids)
	for _, id := range ids {
		if errors.Is(d.Out[id], wire.EncryptedFolder) {
			return inFolder(id, d.Out[id])
		}
	}
	return wire.NotShared
}

// Read ends the first look: it asks for the bytes, on the same connection. It calls read with how many it has read.
func (d *Device) Read(ctx context.Context, connection *wire.Connection, asked Asked, read func(bytes int64)) error {
	for _, folder := range d.Folders {
		if err := folder.read(ctx, connection.Shared(folder.ID()), asked, read); err != nil {
			return inFolder(folder.ID(), err)
		}
	}
	d.first = time.Now().UTC()
	return nil
}

// Wanted gives how many bytes will be asked for.
func (d *Device) Wanted(asked Asked) (int64, error) {
	sum := int64(0)
	for _, folder := range d.Folders {
		bytes, err := folder.wanted(asked)
		if err != nil {
			return 0, inFolder(folder.ID(), err)
		}
		sum = part.Sum(sum, bytes)
	}
	return sum, nil
}

// inFolder says in which folder something failed.
func inFolder(id string, err error) error { return fmt.Errorf("folder %q: %w", id, err) }

// Close lets go of what was found.
func (d *Device) Close() {
	for _, folder := range d.Folders {
		folder.disks.close()
	}
	if d.room != "" {
		os.RemoveAll(d.room)
	}
}

// Since gives an index of a folder for the second look, which says that it has what the first one had, and takes what comes since. It stands in a
// directory of its own in the room.
func (d *Device) Since(room, folder string) (*wire.Index, error) {
	var err error
	if d.room == "" {
		if d.room, err = os.MkdirTemp(room, "since-"); err != nil {
			return nil, err
		}
	}
	directory, err := os.MkdirTemp(d.room, "index-")
	if err != nil {
		return nil, err
	}
	index, err := wire.OpenIndex(directory)
	if first := d.Folder(folder); err == nil && first != nil {
		index.ID, index.Highest = first.index.ID, first.index.Highest
	}
	return index, err
}

// Folder gives the folder of this id, or nothing.
func (d *Device) Folder(id string) *Folder {
	place := sort.Search(len(d.Folders), func(place int) bool { return d.Folders[place].ID() >= id })
	if place < len(d.Folders) && d.Folders[place].ID() == id {
		return d.Folders[place]
	}
	return nil
}

// End makes the second look, on another connection: what came since. A folder that isn't shared with the observer any more is out.
func (d *Device) End(ctx context.Context, connection *wire.Connection) error {
	d.again = time.Now().UTC()
	if connection.Device != d.ID {
		return fmt.Errorf("another device, %s", connection.Device)
	}
	kept := []*Folder{}
	for _, folder := range d.Folders {
		id := folder.ID()
		again := connection.Shared(id)
		if again == nil {
			d.Out[id] = fmt.Errorf("at the second look: %w", whyOut(connection, id))
			folder.disks.close()
			continue
		}
		if err := folder.end(ctx, again); err != nil {
			return inFolder(id, err)
		}
		kept = append(kept, folder)
	}
	if d.Folders = kept; len(kept) == 0 {
		return wire.NotShared
	}
	return nil
}

// whyOut says why a folder isn't observed on a connection.
func whyOut(connection *wire.Connection, folder string) error {
	if why := connection.Out[folder]; why != nil {
		return why
	}
	return wire.NotShared
}
