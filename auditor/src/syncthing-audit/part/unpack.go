package part

import (
	"errors"
	"fmt"
	"unicode/utf8"

	"google.golang.org/protobuf/encoding/protowire"
	"syncthing-audit/limits"
	"syncthing-audit/message"
)

// mostOfAList is how long a list of a name may be: longer than any that a part is written with. Its items take more in memory than in a part.
const mostOfAList = 16384

// errLongList says that a list of a name is none.
var errLongList = fmt.Errorf("it has a list of over %d items", mostOfAList)

// errNoText says that a text of a name is none.
var errNoText = errors.New("a text of it isn't UTF-8")

// unpacker reads what a part has of a name. The first error stays.
type unpacker struct {
	err   error
	usual int // how many views names had up to now, unless that is very many
}

// room is what nearly all names have, so that one of them takes little more than one allocation.
type room struct {
	name        Name
	own         Record
	content     Content
	permissions uint32
	counters    [1][2]uint64
	disk        Node
	contents    [1]Content
}

// fields are those of a message; there are none once something is wrong.
func (u *unpacker) fields(text []byte) message.Fields { return message.FieldsOf(text, &u.err) }

// name reads a name.
func (u *unpacker) name(text []byte) (*Name, error) {
	room := &room{}
	name := &room.name
	u.err = nil
	for field := u.fields(text); field.Next(); {
		switch field.Number {
		case nameName:
			name.Name = Bytes(field.Text)
		case nameOwn:
			name.Own = u.ownRecord(field.Text, room)
		case nameView:
			if name.Views == nil {
				name.Views = make([]Seen, 0, u.usual)
			}
			name.Views = append(name.Views, u.seen(field.Text))
			u.checkLength(len(name.Views))
		case nameDisk:
			name.Disk = u.node(field.Text, room)
		case nameOut:
			name.Out = append(name.Out, u.leftOut(field.Text))
			u.checkLength(len(name.Out))
		case nameReceiving:
			name.Receiving = u.words(field.Text)
		case nameDiffer:
			name.Differ = u.differ(field.Text)
		case nameNotRead:
			name.NotRead = field.Value != 0
		case nameMoved:
			name.Moved = append(name.Moved, u.words(field.Text))
			u.checkLength(len(name.Moved))
		}
	}
	if count := len(name.Views); count > u.usual && count <= limits.MostDevices {
		u.usual = count
	}
	return name, u.err
}

// ownRecord reads a device's own record.
func (u *unpacker) ownRecord(text []byte, to *room) *Record {
	to.own, to.content, to.permissions = Record{Version: to.counters[:0]}, Content{}, 0
	u.record(text, &to.own, &to.content, &to.permissions)
	return &to.own
}

// record reads a record.
func (u *unpacker) record(text []byte, record *Record, content *Content, permissions *uint32) {
	isWithout := false
	for field := u.fields(text); field.Next(); {
		switch field.Number {
		case message.FileType:
			record.Type = narrow(field.Value)
		case message.FileSize:
			content.Size = int64(field.Value)
		case message.FilePermissions:
			*permissions = uint32(field.Value)
		case message.FileModifiedS:
			record.ModifiedS = int64(field.Value)
		case message.FileDeleted:
			record.Deleted = field.Value != 0
		case message.FileInvalid:
			record.Invalid = field.Value != 0
		case message.FileNoPermissions:
			isWithout = field.Value != 0
		case message.FileVersion:
			record.Version = u.version(field.Text, record.Version)
		case message.FileSequence:
			record.Sequence = int64(field.Value)
		case message.FileModifiedNs:
			record.ModifiedNs = narrow(field.Value)
		case message.FileModifiedBy:
			record.ModifiedBy = field.Value
		case message.FileBlockSize:
			content.BlockSize = int64(field.Value)
		case message.FileTarget:
			record.Target = u.words(field.Text)
		case recordHash:
			content.Hash = u.hash(field.Text)
			record.Content = content
		case recordLocal:
			record.Local = u.version(field.Text, Version{})
		}
	}
	if !isWithout {
		record.Permissions = permissions
	}
}

// node reads what stands on the disk.
func (u *unpacker) node(text []byte, to *room) *Node {
	node := &to.disk
	*node = Node{}
	for field := u.fields(text); field.Next(); {
		switch field.Number {
		case message.FileType:
			node.Type = narrow(field.Value)
		case message.FileSize:
			node.Size = int64(field.Value)
		case message.FilePermissions:
			node.Permissions = uint32(field.Value)
		case message.FileModifiedS:
			node.ModifiedS = int64(field.Value)
		case message.FileModifiedNs:
			node.ModifiedNs = narrow(field.Value)
		case message.FileTarget:
			node.Target = u.words(field.Text)
		case nodeContent:
			if node.Contents == nil {
				node.Contents = to.contents[:0]
			}
			node.Contents = append(node.Contents, u.content(field.Text))
			u.checkLength(len(node.Contents))
		case nodeDiffer:
			node.Differ = u.differ(field.Text)
		case nodeLost:
			node.Lost = u.words(field.Text)
		case nodeUnread:
			node.Unread = int64(field.Value)
		case nodeStamp:
			node.Stamp = u.words(field.Text)
		case nodeLink:
			node.Link = int64(field.Value)
		}
	}
	return node
}

func (u *unpacker) seen(text []byte) (seen Seen) {
	for field := u.fields(text); field.Next(); {
		switch field.Number {
		case viewPlace:
			seen.View = narrow(field.Value)
		case viewSame:
			seen.Same = int64(field.Value)
		case viewRecord:
			seen.Record = &Record{Version: Version{}}
			u.record(field.Text, seen.Record, &Content{}, new(uint32))
		}
	}
	return seen
}

func (u *unpacker) leftOut(text []byte) (out LeftOut) {
	for field := u.fields(text); field.Next(); {
		switch field.Number {
		case outKind:
			out.Kind = u.words(field.Text)
		case outWhy:
			out.Why = u.words(field.Text)
		case outBytes:
			out.Bytes = int64(field.Value)
		case outBelow:
			out.Below = field.Value != 0
		}
	}
	return out
}

func (u *unpacker) differ(text []byte) *Differ {
	differ := &Differ{}
	for field := u.fields(text); field.Next(); {
		switch field.Number {
		case differCount:
			differ.Count = int64(field.Value)
		case differRange:
			first, last := u.pair(field.Text, rangeFirst, rangeLast)
			differ.Ranges = append(differ.Ranges, [2]int64{int64(first), int64(last)})
			u.checkLength(len(differ.Ranges))
		case differRecorded:
			hash := u.hash(field.Text)
			differ.First.Recorded = &hash
		case differFound:
			hash := u.hash(field.Text)
			differ.First.Found = &hash
		}
	}
	return differ
}

func (u *unpacker) content(text []byte) (content Content) {
	for field := u.fields(text); field.Next(); {
		switch field.Number {
		case contentSize:
			content.Size = int64(field.Value)
		case contentBlockSize:
			content.BlockSize = int64(field.Value)
		case contentHash:
			content.Hash = u.hash(field.Text)
		}
	}
	return content
}

// version reads a version into the room of an empty one.
func (u *unpacker) version(text []byte, version Version) Version {
	version = version[:0]
	for field := u.fields(text); field.Next(); {
		if field.Number == message.VersionCounter {
			device, value := u.pair(field.Text, message.CounterID, message.CounterValue)
			version = append(version, [2]uint64{device, value})
			u.checkLength(len(version))
		}
	}
	return version
}

// pair reads a message of two numbers, which have these fields.
func (u *unpacker) pair(text []byte, one, other protowire.Number) (first, second uint64) {
	for field := u.fields(text); field.Next(); {
		switch field.Number {
		case one:
			first = field.Value
		case other:
			second = field.Value
		}
	}
	return first, second
}

func (u *unpacker) hash(text []byte) (hash Hash) {
	if len(text) != len(hash) {
		u.fail(fmt.Errorf("a hash of it has %d bytes", len(text)))
	}
	copy(hash[:], text)
	return hash
}

func (u *unpacker) words(text []byte) string {
	if !utf8.Valid(text) {
		u.fail(errNoText)
	}
	return string(text)
}

func (u *unpacker) checkLength(count int) {
	if count > mostOfAList {
		u.fail(errLongList)
	}
}

func (u *unpacker) fail(err error) {
	if u.err == nil {
		u.err = err
	}
}

// narrow gives a number; -1, which no rule takes, where this machine's numbers have no room for it.
func narrow(value uint64) int {
	if int64(int(value)) != int64(value) {
		return -1
	}
	return int(value)
}
