package observe

import (
	"context"

	"syncthing-audit/device"
	hashing "syncthing-audit/disk"
	"syncthing-audit/part"
	"syncthing-audit/wire"
)

// How many files are asked for again, of those that a walk of the disks found with other bytes than recorded, and how many bytes. Of more than these the
// answer says alone that they differ.
const (
	mostDiffering        = 1000
	mostBytesOfDiffering = 20 << 30
)

// Walked are files of a folder that a walk of the disks found with other bytes than recorded, by name: by the blocks of their records.
type Walked struct {
	Folder string
	found  map[string]part.Content
	bytes  int64
}

// Walk takes a name as the walk found it. Of a file with another time or size than recorded nobody asks: it waits for a scan.
func (w *Walked) Walk(of *Folder, name *part.Name) error {
	if name.Disk == nil || len(name.Disk.Contents) == 0 || len(name.Out)+len(name.Moved) > 0 || len(w.found) == mostDiffering {
		return nil
	}
	entry, _, err := of.index.Get(string(name.Name))
	if entry.Record == nil || entry.Record.Content == nil || entry.Record.Content.Size != name.Disk.Size || entry.Record.ModifiedS != name.Disk.ModifiedS {
		return err
	}
	for _, found := range name.Disk.Contents {
		isThat := found.BlockSize == entry.Record.Content.BlockSize && found.Hash != entry.Record.Content.Hash
		if isThat && w.bytes+found.Size <= mostBytesOfDiffering {
			if w.found == nil {
				w.found = map[string]part.Content{}
			}
			w.found[entry.Name] = found
			w.bytes += found.Size
		}
	}
	return nil
}

// Compare asks, on the connection of the second look, which blocks of these files differ. What comes is taken only where it is what the walk found.
func (d *Device) Compare(ctx context.Context, connection *wire.Connection, walked []*Walked) error {
	for _, walk := range walked {
		folder, shared := d.Folder(walk.Folder), connection.Shared(walk.Folder)
		if folder == nil || shared == nil || len(walk.found) == 0 {
			continue
		}
		if err := folder.compare(ctx, shared, walk.found); err != nil {
			return inFolder(walk.Folder, err)
		}
	}
	return nil
}

func (f *Folder) compare(ctx context.Context, shared *wire.Shared, walked map[string]part.Content) error {
	f.differ = map[string]*part.Differ{}
	isWanted := func(entry device.Entry) (bool, error) {
		_, is := walked[entry.Name]
		return is, nil
	}
	return shared.Bytes(ctx, f.index, isWanted, func(entry device.Entry, found wire.Found) error {
		if seen := walked[entry.Name]; found.Unread == 0 && found.Size == seen.Size && found.BlockSize == seen.BlockSize && hashing.HashOf(found.Blocks) == seen.Hash {
			f.differ[entry.Name] = found.Differ
		}
		return nil
	})
}
