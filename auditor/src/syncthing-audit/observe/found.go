package observe

import (
	"crypto/sha256"

	"github.com/syncthing/syncthing/lib/protocol"
	hashing "syncthing-audit/disk"
	"syncthing-audit/part"
	"syncthing-audit/wire"
)

// diskOf gives what a part says of what was found where a name is recorded.
func diskOf(device protocol.DeviceID, name string, found wire.Found) disk {
	switch found.State {
	case wire.Same, wire.Differs, wire.Present:
		content := part.Content{Size: found.Size, BlockSize: found.BlockSize, Hash: hashing.HashOf(found.Blocks)}
		if found.Unread > 0 { // nobody knows which other files have its bytes
			content.Hash = sha256.Sum256([]byte("not read to its end over the wire\x00" + device.String() + "\x00" + name))
		}
		if found.Sealed && found.State == wire.Differs { // no other file has such bytes
			content.Hash = sha256.Sum256([]byte("not what was encrypted\x00" + device.String() + "\x00" + name))
		}
		return disk{Node: &part.Node{Type: int(protocol.FileInfoTypeFile), Size: found.Size, Contents: []part.Content{content}, Differ: found.Differ, Unread: found.Unread}}
	case wire.Missing:
		return disk{}
	case wire.Ignored:
		return disk{Out: &part.LeftOut{Kind: part.Ignored, Why: part.WhyIgnored}}
	case wire.Failed:
		return disk{Out: &part.LeftOut{Kind: part.Unreadable, Why: "asked over the wire, the device fails to read it"}}
	}
	return disk{Out: &part.LeftOut{Kind: part.Unknown, Why: "asked over the wire, the device doesn't tell how long the file is, or the file changed while it was read"}}
}

// outOfInvalid says why a record that its device marks as invalid, and that is no local change, isn't compared: the device may ignore the name, or wait
// for a scan of it. Over the wire it isn't told which.
func outOfInvalid(record *part.Record) *part.LeftOut {
	if record == nil || !record.Invalid || isLocalChange(record) {
		return nil
	}
	return &part.LeftOut{Kind: part.Unknown, Why: "the device marks its record as invalid, and doesn't tell over the wire why: it may ignore the name, or wait for a scan"}
}

// isLocalChange says whether a record is a local change of a device that only receives: it is sent without a version.
func isLocalChange(record *part.Record) bool { return record.Invalid && len(record.Version) == 0 }
