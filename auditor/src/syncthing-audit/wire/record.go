package wire

import (
	"fmt"

	"github.com/syncthing/syncthing/lib/protocol"
	"syncthing-audit/device"
	"syncthing-audit/message"
)

// A message of 64 MB has room for 32 million blocks or counters of nothing, which would take 50 times that in memory. So a record has no more
// counters than this, and no more blocks than their hashes have room for.
const (
	mostCounters   = 4096
	leastBlockText = 32
)

// entryIn reads a record. What a document doesn't have of it is told later, as of the records of a home.
func entryIn(text []byte, longestName int) (protocol.FileInfo, error) {
	var file protocol.FileInfo
	err := message.Each(text, func(field message.Field) error {
		switch field.Number {
		case message.FileName:
			if len(field.Text) > longestName {
				return fmt.Errorf("%w: %d bytes", NameTooLong, len(field.Text))
			}
			file.Name = string(field.Text)
		case message.FileVersion:
			return addCounters(&file.Version, field.Text)
		case message.FileBlock:
			if len(file.Blocks) > len(text)/leastBlockText {
				return fmt.Errorf("%w: a record with blocks without hashes", BadMessage)
			}
			var wrong error
			device.AddBlock(&file, field.Text, &wrong) // the hash stays a part of the message, which is read no longer than the record is
			return wrong
		default:
			device.TakeField(&file, field)
		}
		return nil
	})
	return file, err
}

// addCounters adds the counters of a version.
func addCounters(to *protocol.Vector, text []byte) error {
	return message.Each(text, func(field message.Field) error {
		if field.Number != message.VersionCounter {
			return nil
		}
		if len(to.Counters) == mostCounters {
			return fmt.Errorf("%w: a version of over %d counters", BadMessage, mostCounters)
		}
		var wrong error
		device.AddCounter(to, field.Text, &wrong)
		return wrong
	})
}
