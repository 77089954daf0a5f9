package observe

import (
	"context"
	"fmt"

	"github.com/syncthing/syncthing/lib/protocol"
	"syncthing-audit/budget"
	"syncthing-audit/choice"
	"syncthing-audit/device"
	"syncthing-audit/part"
	"syncthing-audit/wire"
)

// Folder is what an observer has seen of a folder at a device.
type Folder struct {
	of    protocol.DeviceID
	said  wire.Folder // at the first look
	heard wire.Folder // at the second look
	index *wire.Index
	since *wire.Index // what came between the looks
	disks *disks
	bytes int64
	names int64 // of the device's own index

	differ map[string]*part.Differ // of files that a walk of the disks found with other bytes: which blocks

	told   *part.Folder            // what the device's own Syncthing says of it; nothing where that wasn't asked
	locals map[string]part.Version // the versions of local changes, where it says them; they aren't sent

	isOpened   bool  // whether it is encrypted there, and was read with its password
	wentBack   int64 // from which sequence of an earlier look its index went back; 0 where it didn't
	isReceiver bool  // whether it has local changes, as a device that only receives has
}

// ID gives the folder's id.
func (f *Folder) ID() string { return f.said.ID }

// Place gives the folder as a budget knows it.
func (f *Folder) Place(names choice.Names) budget.Place {
	return budget.Place{Folder: f.ID(), Device: part.Number(f.of.String()), Index: f.index, Names: names}
}

// beginFolder takes the index of a folder, and compares it with the one of the last run.
func beginFolder(ctx context.Context, shared *wire.Shared, kept *Kept, room string, of protocol.DeviceID) (*Folder, error) {
	folder := &Folder{of: of, said: shared.Folder, isOpened: shared.IsOpened()}
	var err error
	if folder.index, err = shared.Index(ctx); err != nil {
		return nil, err
	}
	if folder.wentBack, err = kept.WentBackFrom(); err != nil {
		return nil, err
	}
	if err = folder.count(); err != nil {
		return nil, err
	}
	folder.disks, err = newDisks(room)
	return folder, err
}

// wants gives what says whether an entry's bytes are asked for.
func (a *Asked) wants(folder string) func(entry device.Entry) (bool, error) {
	return func(entry device.Entry) (bool, error) {
		if !a.Names.Has(folder, entry.Name) || a.Chosen == nil || !budget.HasBytes(entry) {
			return a.Names.Has(folder, entry.Name), nil
		}
		return a.Chosen.Has(folder, entry.Name)
	}
}

// wanted gives how many bytes are asked for.
func (f *Folder) wanted(asked Asked) (int64, error) {
	sum := int64(0)
	if asked.Records {
		return sum, nil
	}
	isWanted := asked.wants(f.ID())
	err := f.index.Each(func(entry device.Entry) error {
		is, err := isWanted(entry)
		if is && budget.HasBytes(entry) {
			sum = part.Sum(sum, entry.Record.Content.Size)
		}
		return err
	})
	return sum, err
}

// read asks for the bytes of a folder, if they are wanted.
func (f *Folder) read(ctx context.Context, shared *wire.Shared, asked Asked, read func(bytes int64)) error {
	if asked.Records {
		return nil
	}
	return shared.Bytes(ctx, f.index, asked.wants(f.ID()), func(entry device.Entry, found wire.Found) error {
		f.bytes += found.Read()
		read(found.Read())
		return f.disks.put(entry.Name, diskOf(f.of, entry.Name, found))
	})
}

// count counts the names of the device's own index, and sees whether it has local changes.
func (f *Folder) count() error {
	return f.index.Each(func(entry device.Entry) error {
		f.names++
		f.isReceiver = f.isReceiver || entry.Record != nil && isLocalChange(entry.Record)
		return nil
	})
}

// countSealed says how much there is of a folder that is encrypted, and of which no password is given.
func countSealed(ctx context.Context, shared *wire.Shared) (error, error) {
	index, err := shared.Index(ctx)
	if err != nil {
		return nil, err
	}
	names, bytes := int64(0), int64(0)
	err = index.Each(func(entry device.Entry) error {
		if entry.Record != nil && entry.Record.Deleted {
			return nil
		}
		names++
		if entry.Record != nil && entry.Record.Content != nil {
			bytes = part.Sum(bytes, entry.Record.Content.Size)
		} else if entry.Out != nil {
			bytes = part.Sum(bytes, entry.Out.Bytes)
		}
		return nil
	})
	return fmt.Errorf("%w: %d names, %d bytes", wire.EncryptedFolder, names, bytes), err
}

// end takes what came since the first look.
func (f *Folder) end(ctx context.Context, shared *wire.Shared) error {
	f.heard = shared.Folder
	since, err := shared.Index(ctx)
	if err != nil {
		return err
	}
	if since.ID != f.index.ID || since.Highest < f.index.Highest {
		return errWentBack
	}
	f.since = since
	return nil
}
