package device

import (
	"github.com/syncthing/syncthing/lib/protocol"
	"syncthing-audit/adapt"
	"syncthing-audit/message"
)

// isNumber says whether a field has a number, as Syncthing writes one: it writes no 0.
func isNumber(field message.Field) bool { return field.Text == nil && field.Value != 0 }

// fits says whether a number has 32 bits, as one that Syncthing writes. What is made of a longer one isn't the same in each version.
func fits(value uint64) bool { return int64(int32(value)) == int64(value) }

// TakeField takes a field of a FileInfo, but for its name, version and blocks. It says whether it is one, and as Syncthing writes it.
func TakeField(file *protocol.FileInfo, field message.Field) (isPlain bool) {
	switch field.Number {
	case message.FileTarget:
		adapt.SetText(&file.SymlinkTarget, string(field.Text))
		return field.Text != nil
	case message.FileEncrypted:
		file.Encrypted = append([]byte(nil), field.Text...)
		return field.Text != nil
	}
	return takeNumber(file, field) && isNumber(field)
}

// takeNumber takes a number of a FileInfo, and says whether it is one, and no longer than it may be.
func takeNumber(file *protocol.FileInfo, field message.Field) bool {
	switch field.Number {
	case message.FileType:
		file.Type = protocol.FileInfoType(field.Value)
		return fits(field.Value)
	case message.FileSize:
		file.Size = int64(field.Value)
	case message.FilePermissions:
		file.Permissions = uint32(field.Value)
		return fits(field.Value)
	case message.FileModifiedS:
		file.ModifiedS = int64(field.Value)
	case message.FileDeleted:
		file.Deleted = field.Value != 0
	case message.FileInvalid:
		file.RawInvalid = field.Value != 0
	case message.FileNoPermissions:
		file.NoPermissions = field.Value != 0
	case message.FileSequence:
		file.Sequence = int64(field.Value)
	case message.FileModifiedNs:
		adapt.SetNumber(&file.ModifiedNs, int(int32(field.Value)))
		return fits(field.Value)
	case message.FileModifiedBy:
		file.ModifiedBy = protocol.ShortID(field.Value)
	case message.FileBlockSize:
		adapt.SetNumber(&file.RawBlockSize, int(int32(field.Value)))
		return fits(field.Value)
	default:
		return false
	}
	return true
}

// AddCounter adds a counter to a version, and says whether it is as Syncthing writes it. What is wrong with its text is put where the caller has room for
// that: an error of its own would take memory for each counter.
func AddCounter(to *protocol.Vector, text []byte, wrong *error) (isPlain bool) {
	var counter protocol.Counter
	isPlain = true
	for fields := message.FieldsOf(text, wrong); fields.Next(); {
		field := fields.Field
		switch field.Number {
		case message.CounterID:
			counter.ID = protocol.ShortID(field.Value)
		case message.CounterValue:
			counter.Value = field.Value
		default:
			isPlain = false
		}
		isPlain = isPlain && isNumber(field)
	}
	to.Counters = append(to.Counters, counter)
	return isPlain
}

// AddBlock adds a block, and says whether it is as Syncthing writes it. Its hash stays a part of the text. What is wrong with that is put where the caller
// has room for it.
func AddBlock(to *protocol.FileInfo, text []byte, wrong *error) (isPlain bool) {
	var block protocol.BlockInfo
	isPlain = true
	for fields := message.FieldsOf(text, wrong); fields.Next(); {
		field := fields.Field
		isDue := isNumber(field)
		switch field.Number {
		case message.BlockOffset:
			block.Offset = int64(field.Value)
		case message.BlockSize:
			adapt.SetNumber(&block.Size, int(int32(field.Value)))
			isDue = isDue && fits(field.Value)
		case message.BlockHash:
			block.Hash = field.Text
			isDue = field.Text != nil
		case message.BlockWeak:
		default:
			isDue = false
		}
		isPlain = isPlain && isDue
	}
	to.Blocks = append(to.Blocks, block)
	return isPlain
}
