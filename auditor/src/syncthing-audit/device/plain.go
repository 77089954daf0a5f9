package device

import (
	"unicode/utf8"

	"github.com/syncthing/syncthing/lib/db"
	"github.com/syncthing/syncthing/lib/protocol"
	"google.golang.org/protobuf/encoding/protowire"
	"syncthing-audit/message"
)

// The fields of an entry of which nothing is told or that it has in an index alone, and that of a list of blocks.
const (
	fieldOfPlatform protowire.Number = 14 // owners and the like; an empty one is in each entry from Syncthing 1.22 on
	fieldOfFlags    protowire.Number = 1000
	fieldOfInode    protowire.Number = 1002 // when it was changed
	fieldOfBlock    protowire.Number = 1
)

// plainReader reads entries of an index, each into the room of the one before. An entry is plain if all of its fields are known here, and as Syncthing
// writes them. What isn't plain may be of a Syncthing that isn't known, or damaged: Syncthing's own package decides that.
type plainReader struct {
	get    func(key []byte) ([]byte, error)
	file   protocol.FileInfo
	blocks []byte // the key of the blocks that stand elsewhere
	err    error
}

// read reads an entry; nothing where it isn't plain. It is good up to the next one, and as long as its text is.
func (r *plainReader) read(name, text []byte) *protocol.FileInfo {
	r.file = protocol.FileInfo{Blocks: r.file.Blocks[:0], Version: protocol.Vector{Counters: r.file.Version.Counters[:0]}}
	r.blocks, r.err = r.blocks[:0], nil
	for fields := message.FieldsOf(text, &r.err); fields.Next(); {
		if !r.take(fields.Field) {
			return nil
		}
	}
	isNamed := r.file.Name == string(name) && len(name) > 0 && utf8.Valid(name)
	if r.err != nil || !isNamed || len(r.file.Blocks) == 0 && len(r.blocks) > 0 && !r.readBlocks() {
		return nil
	}
	return &r.file
}

// take takes a field, and says whether it is plain.
func (r *plainReader) take(field message.Field) bool {
	switch field.Number {
	case message.FileName:
		r.file.Name = string(field.Text)
	case message.FileVersion:
		return field.Text != nil && r.takeVersion(field.Text)
	case message.FileBlock:
		return field.Text != nil && r.takeBlock(field.Text)
	case message.FileBlocksHash:
		r.blocks = append(append(r.blocks[:0], db.KeyTypeBlockList), field.Text...)
	case fieldOfPlatform:
		return field.Text != nil && len(field.Text) == 0
	case fieldOfFlags:
		r.file.LocalFlags = uint32(field.Value)
		return isNumber(field) && fits(field.Value)
	case fieldOfInode:
		return isNumber(field)
	default:
		return TakeField(&r.file, field)
	}
	return len(field.Text) > 0
}

// takeVersion takes a version. One of many counters stands elsewhere.
func (r *plainReader) takeVersion(text []byte) bool {
	for fields := message.FieldsOf(text, &r.err); fields.Next(); {
		if !AddCounter(&r.file.Version, fields.Text, &r.err) || fields.Number != message.VersionCounter || fields.Text == nil {
			return false
		}
	}
	return r.err == nil
}

func (r *plainReader) takeBlock(text []byte) bool {
	return AddBlock(&r.file, text, &r.err) && r.err == nil
}

// readBlocks reads blocks that stand elsewhere.
func (r *plainReader) readBlocks() bool {
	list, err := r.get(r.blocks)
	if err != nil {
		return false
	}
	for fields := message.FieldsOf(list, &r.err); fields.Next(); {
		if fields.Number != fieldOfBlock || fields.Text == nil || !r.takeBlock(fields.Text) {
			return false
		}
	}
	return r.err == nil
}
