package device

import (
	"github.com/syncthing/syncthing/lib/protocol"
	"google.golang.org/protobuf/encoding/protowire"
	"syncthing-audit/message"
)

// What an index keeps of a folder's counts is a message CountsSet, with Counts of each device for each of its local flags.
// Syncthing 1.29 has the messages where no other program reaches them. These are the numbers of the fields that are read.
const (
	fieldOfCounts     protowire.Number = 1 // of CountsSet; the others are of Counts
	fieldOfSequence   protowire.Number = 6
	fieldOfDevice     protowire.Number = 17
	fieldOfLocalFlags protowire.Number = 18
)

// sequenceIn gives the greatest sequence of a device's own entries, as counts have it; 0 where they don't.
func sequenceIn(counts []byte) (int64, error) {
	own, found := int64(0), false
	err := message.Each(counts, func(known message.Field) error {
		if known.Number != fieldOfCounts || found {
			return nil
		}
		var sequence, flags uint64
		of := ""
		err := message.Each(known.Text, func(field message.Field) error {
			switch field.Number {
			case fieldOfSequence:
				sequence = field.Value
			case fieldOfDevice:
				of = string(field.Text)
			case fieldOfLocalFlags:
				flags = field.Value
			}
			return nil
		})
		if found = err == nil && flags == 0 && of == string(protocol.LocalDeviceID[:]); found {
			own = int64(sequence)
		}
		return err
	})
	return own, err
}
