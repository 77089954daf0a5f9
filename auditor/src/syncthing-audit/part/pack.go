package part

import (
	"strings"

	"google.golang.org/protobuf/encoding/protowire"
	"syncthing-audit/message"
)

// appendName appends what a part has of a name.
func appendName(to []byte, name *Name) []byte {
	to = message.AppendText(to, nameName, []byte(name.Name))
	if name.Own != nil {
		to = message.AppendMessage(to, nameOwn, name.Own.append)
	}
	for place := range name.Views {
		to = message.AppendMessage(to, nameView, name.Views[place].append)
	}
	if name.Disk != nil {
		to = message.AppendMessage(to, nameDisk, name.Disk.append)
	}
	for place := range name.Out {
		to = message.AppendMessage(to, nameOut, name.Out[place].append)
	}
	to = appendWords(to, nameReceiving, name.Receiving)
	if name.Differ != nil {
		to = message.AppendMessage(to, nameDiffer, name.Differ.append)
	}
	to = appendFlag(to, nameNotRead, name.NotRead)
	for _, moved := range name.Moved {
		to = message.AppendMessage(to, nameMoved, func(to []byte) []byte { return append(to, moved...) })
	}
	return to
}

// append appends a record as a FileInfo.
func (r *Record) append(to []byte) []byte {
	to = message.AppendNumber(to, message.FileType, uint64(r.Type))
	if r.Content != nil {
		to = message.AppendNumber(to, message.FileSize, uint64(r.Content.Size))
	}
	if r.Permissions != nil {
		to = message.AppendNumber(to, message.FilePermissions, uint64(*r.Permissions))
	}
	to = message.AppendNumber(to, message.FileModifiedS, uint64(r.ModifiedS))
	to = appendFlag(to, message.FileDeleted, r.Deleted)
	to = appendFlag(to, message.FileInvalid, r.Invalid)
	to = appendFlag(to, message.FileNoPermissions, r.Permissions == nil)
	to = appendVersion(to, message.FileVersion, r.Version)
	to = message.AppendNumber(to, message.FileSequence, uint64(r.Sequence))
	to = message.AppendNumber(to, message.FileModifiedNs, uint64(r.ModifiedNs))
	to = message.AppendNumber(to, message.FileModifiedBy, r.ModifiedBy)
	if r.Content != nil {
		to = message.AppendNumber(to, message.FileBlockSize, uint64(r.Content.BlockSize))
	}
	to = appendWords(to, message.FileTarget, r.Target)
	if r.Content != nil {
		to = message.AppendText(to, recordHash, r.Content.Hash[:])
	}
	return appendVersion(to, recordLocal, r.Local)
}

// append appends a node as a FileInfo.
func (n *Node) append(to []byte) []byte {
	to = message.AppendNumber(to, message.FileType, uint64(n.Type))
	to = message.AppendNumber(to, message.FileSize, uint64(n.Size))
	to = message.AppendNumber(to, message.FilePermissions, uint64(n.Permissions))
	to = message.AppendNumber(to, message.FileModifiedS, uint64(n.ModifiedS))
	to = message.AppendNumber(to, message.FileModifiedNs, uint64(n.ModifiedNs))
	to = appendWords(to, message.FileTarget, n.Target)
	for place := range n.Contents {
		to = message.AppendMessage(to, nodeContent, n.Contents[place].append)
	}
	if n.Differ != nil {
		to = message.AppendMessage(to, nodeDiffer, n.Differ.append)
	}
	to = appendWords(to, nodeLost, n.Lost)
	to = message.AppendNumber(to, nodeUnread, uint64(n.Unread))
	to = appendWords(to, nodeStamp, n.Stamp)
	return message.AppendNumber(to, nodeLink, uint64(n.Link))
}

func (s *Seen) append(to []byte) []byte {
	to = message.AppendNumber(to, viewPlace, uint64(s.View))
	to = message.AppendNumber(to, viewSame, uint64(s.Same))
	if s.Record != nil {
		to = message.AppendMessage(to, viewRecord, s.Record.append)
	}
	return to
}

func (l *LeftOut) append(to []byte) []byte {
	to = appendWords(to, outKind, l.Kind)
	to = appendWords(to, outWhy, l.Why)
	to = message.AppendNumber(to, outBytes, uint64(l.Bytes))
	return appendFlag(to, outBelow, l.Below)
}

func (d *Differ) append(to []byte) []byte {
	to = message.AppendNumber(to, differCount, uint64(d.Count))
	for _, span := range d.Ranges {
		to = message.AppendMessage(to, differRange, func(to []byte) []byte {
			return message.AppendNumber(message.AppendNumber(to, rangeFirst, uint64(span[0])), rangeLast, uint64(span[1]))
		})
	}
	return appendHash(appendHash(to, differRecorded, d.First.Recorded), differFound, d.First.Found)
}

func (c *Content) append(to []byte) []byte {
	to = message.AppendNumber(to, contentSize, uint64(c.Size))
	to = message.AppendNumber(to, contentBlockSize, uint64(c.BlockSize))
	return message.AppendText(to, contentHash, c.Hash[:])
}

// appendVersion appends a version (BEP, 'Vector'). One without counters isn't written.
func appendVersion(to []byte, field protowire.Number, version Version) []byte {
	if len(version) == 0 {
		return to
	}
	return message.AppendMessage(to, field, func(to []byte) []byte {
		for _, counter := range version {
			to = message.AppendMessage(to, message.VersionCounter, func(to []byte) []byte {
				return message.AppendNumber(message.AppendNumber(to, message.CounterID, counter[0]), message.CounterValue, counter[1])
			})
		}
		return to
	})
}

// appendHash appends a hash, unless it is none.
func appendHash(to []byte, field protowire.Number, hash *Hash) []byte {
	if hash == nil {
		return to
	}
	return message.AppendText(to, field, hash[:])
}

// appendFlag appends what is so.
func appendFlag(to []byte, field protowire.Number, is bool) []byte {
	if !is {
		return to
	}
	return message.AppendNumber(to, field, 1)
}

// appendWords appends a text. What the system says may have bytes that are no text, as a text in JSON may not, either.
func appendWords(to []byte, field protowire.Number, words string) []byte {
	return message.AppendText(to, field, []byte(strings.ToValidUTF8(words, "\uFFFD")))
}
