package finding

import (
	"syncthing-audit/part"
	"syncthing-audit/spill"
)

// Damaged is a name of which a disk itself fails to give what it has, or of one that isn't audited, has other bytes than its own index says.
type Damaged struct {
	Name   part.Bytes
	IsFile bool // whether a row has it, so that syncaudit tells that it isn't as it is due
	At     []DamagedAt
}

// DamagedAt is why, at a device.
type DamagedAt struct {
	Member int
	Why    string
	IsRot  bool // the disk gives bytes, and they aren't those that the device's own index records
}

const storeDiffers = "StoreDiffers"

// failuresOfDamage gives those failures that no row tells: the disk hasn't what is due. It is to be read to its end.
func (f *Folder) failuresOfDamage() *damages {
	return &damages{folder: f, from: f.Damaged.Read()}
}

// damages goes through the names that no row has, since a disk fails to give them.
type damages struct {
	folder *Folder
	from   *spill.Cursor[Damaged]
	at     int // the place of the next device
}

// peek gives the next of these names without taking it.
func (d *damages) peek() *Damaged {
	for {
		next := d.from.Peek()
		if next == nil || !next.IsFile && d.at < len(next.At) {
			return next
		}
		d.from.Take()
		d.at = 0
	}
}

// take gives the next failure.
func (d *damages) take() *Failure {
	next := d.peek()
	failure := &Failure{Reason: storeDiffers, Name: string(next.Name), Device: d.folder.Members[next.At[d.at].Member].Number}
	d.at++
	return failure
}
