// Package damage says why what stands on a disk in place of a recorded file looks like damage, and not like an edit.
package damage

import (
	"github.com/syncthing/syncthing/lib/protocol"
	"syncthing-audit/part"
)

// Kind is why a file looks damaged.
type Kind string

// Kinds. Of the last two, what was recorded may as well be the damage, as where an emptied file was recorded and its bytes were put back since.
const (
	None      Kind = ""
	Emptied   Kind = "emptied"
	Zeros     Kind = "zeros"
	Cut       Kind = "cut-short" // under the recorded time
	ZeroBlock Kind = "zero-block"
	OverZeros Kind = "over-zeros" // other bytes under the recorded time, where all that is recorded is zeros
	Longer    Kind = "longer"     // under the recorded time
)

// Kinds are all of these, what looks most like damage first.
var Kinds = []Kind{Emptied, Zeros, Cut, ZeroBlock, OverZeros, Longer}

// MayBeOfRecord says whether nobody can tell from the two which one is damaged: the disk or the record.
func (k Kind) MayBeOfRecord() bool { return k == OverZeros || k == Longer }

// Of says why what stands on a disk in place of a recorded file looks like damage.
func Of(record *part.Record, disk *part.Node) Kind {
	file := int(protocol.FileInfoTypeFile)
	if record == nil || record.Content == nil || disk == nil || disk.Type != file {
		return None
	}
	isAtItsTime := record.ModifiedS == disk.ModifiedS && record.ModifiedNs == disk.ModifiedNs
	switch content := record.Content; {
	case disk.Size == 0 && content.Size > 0:
		return Emptied
	case hasZeros(disk, content) && isZeros(disk.Contents[0]):
		return Zeros
	case isAtItsTime && hadZeros(disk, content) && isZeros(*content):
		return OverZeros
	case disk.Size < content.Size && isAtItsTime:
		return Cut
	case disk.Size > content.Size && isAtItsTime:
		return Longer
	case hasZeros(disk, content):
		return ZeroBlock
	}
	return None
}
