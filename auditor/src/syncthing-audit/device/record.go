package device

import (
	"errors"
	"fmt"
	"math"
	"sort"

	"github.com/syncthing/syncthing/lib/protocol"
	"syncthing-audit/disk"
	"syncthing-audit/limits"
	"syncthing-audit/part"
)

// Entry is what an index has of a name: a record with its block hashes, or why a document has none such.
type Entry struct {
	Name   string
	Record *part.Record
	Blocks [][32]byte
	Out    *part.LeftOut
}

// ownEntry reads a device's own entry as it goes over the wire. A local change on a receive-only folder is invalid there,
// and without a version. The version that the index has of it is kept beside, unless no document could have such a one.
func ownEntry(entry *protocol.FileInfo) Entry {
	switch {
	case entry.IsIgnored():
		return leftOut(entry, part.Ignored, part.WhyIgnored)
	case entry.IsUnsupported():
		return leftOut(entry, part.OddRecord, "its kind isn't supported there")
	case entry.LocalFlags&^protocol.LocalAllFlags != 0:
		return leftOut(entry, part.OddRecord, fmt.Sprintf("it has local flags %#x, which aren't known here", entry.LocalFlags))
	case entry.MustRescan():
		return leftOut(entry, part.Rescan, "it waits for a scan: start Syncthing, let it finish, stop it")
	}
	if !entry.IsReceiveOnlyChanged() {
		return entryOf(entry)
	}
	local, _ := versionOf(entry.Version)
	onWire := *entry
	onWire.Version = protocol.Vector{}
	own := entryOf(&onWire)
	if own.Record != nil && len(local) > 0 {
		own.Record.Local = local
	}
	return own
}

// WireEntry reads a device's entry that came over the wire.
func WireEntry(entry protocol.FileInfo) Entry { return entryOf(&entry) }

// leftOut gives an entry without a record.
func leftOut(entry *protocol.FileInfo, kind, why string) Entry {
	bytes := int64(0)
	if entry.Type == protocol.FileInfoTypeFile && !entry.Deleted && entry.Size > 0 {
		bytes = entry.Size
	}
	return Entry{Name: entry.Name, Out: &part.LeftOut{Kind: kind, Why: why, Bytes: bytes}}
}

// entryOf reads an entry, and says why a document has no such record.
func entryOf(entry *protocol.FileInfo) Entry {
	read := entryWithoutHash(entry)
	if read.Record != nil && read.Record.Content != nil {
		read.Record.Content.Hash = disk.HashOf(read.Blocks)
	}
	return read
}

// entryWithoutHash reads an entry, but for the hash of its list of blocks.
func entryWithoutHash(entry *protocol.FileInfo) Entry {
	if err := limits.CheckName(entry.Name); err != nil {
		return leftOut(entry, part.OddName, err.Error())
	}
	if entry.Type == protocol.FileInfoTypeSymlink && !entry.Deleted {
		if err := limits.CheckTarget(string(entry.SymlinkTarget)); err != nil {
			return leftOut(entry, part.OddTarget, err.Error())
		}
	}
	record, blocks, err := recordOf(entry)
	if err != nil {
		return leftOut(entry, part.OddRecord, err.Error())
	}
	return Entry{Name: entry.Name, Record: record, Blocks: blocks}
}

// recordOf gives the record of an entry without the hash of its list of blocks, and its block hashes.
func recordOf(entry *protocol.FileInfo) (*part.Record, [][32]byte, error) {
	if err := checkHead(entry); err != nil {
		return nil, nil, err
	}
	version, err := versionOf(entry.Version)
	if err != nil {
		return nil, nil, err
	}
	made := &filledRecord{}
	record := &made.Record
	*record = part.Record{Type: int(entry.Type), ModifiedS: entry.ModifiedS, ModifiedNs: int(entry.ModifiedNs), ModifiedBy: uint64(entry.ModifiedBy),
		Version: version, Sequence: entry.Sequence, Deleted: entry.Deleted, Invalid: entry.IsInvalid()}
	if entry.Deleted {
		return record, nil, nil
	}
	if entry.HasPermissionBits() && !entry.IsSymlink() {
		made.permissions = entry.Permissions & 0o777
		record.Permissions = &made.permissions
	}
	if entry.Type != protocol.FileInfoTypeFile {
		record.Target = string(entry.SymlinkTarget)
		return record, nil, checkOther(entry)
	}
	blocks, err := blocksOf(entry)
	if err != nil {
		return nil, nil, err
	}
	made.content = part.Content{Size: entry.Size, BlockSize: int64(entry.BlockSize())}
	record.Content = &made.content
	return record, blocks, nil
}

// filledRecord is a record with what it points to, which is made at once: each name has some.
type filledRecord struct {
	part.Record
	content     part.Content
	permissions uint32
}

// checkHead says what of an entry but its version and content the document doesn't have.
func checkHead(entry *protocol.FileInfo) error {
	switch {
	case !part.IsType(int(entry.Type)):
		return fmt.Errorf("its type is %d (only files, directories and symlinks are had)", entry.Type)
	case len(entry.Encrypted) > 0:
		return errors.New("it is encrypted")
	case entry.ModifiedNs < 0 || entry.ModifiedNs > 999999999:
		return errors.New("its nanoseconds are over 999999999")
	case entry.ModifiedBy == 0:
		return errors.New("it doesn't say which device changed it")
	}
	return nil
}

// versionOf gives a version's counters, their devices rising.
func versionOf(version protocol.Vector) (part.Version, error) {
	counters := make(part.Version, 0, len(version.Counters))
	for _, counter := range version.Counters {
		if counter.ID == 0 || counter.Value == 0 || counter.Value > math.MaxInt64 {
			return nil, errors.New("its version has a counter without device, of 0 or over 9223372036854775807")
		}
		counters = append(counters, [2]uint64{uint64(counter.ID), counter.Value})
	}
	if len(counters) > limits.MostCounters {
		return nil, fmt.Errorf("its version has over %d counters", limits.MostCounters)
	}
	if len(counters) > 1 { // as most have one
		sort.Slice(counters, func(a, b int) bool { return counters[a][0] < counters[b][0] })
	}
	for next := 1; next < len(counters); next++ {
		if counters[next-1][0] == counters[next][0] {
			return nil, errors.New("its version has two counters of one device")
		}
	}
	return counters, nil
}

// checkOther says why the document has no directory or symlink such as this entry.
func checkOther(entry *protocol.FileInfo) error {
	if entry.Size != 0 || len(entry.Blocks) > 0 {
		return errors.New("it has a size or blocks, and is no file")
	}
	if entry.Type == protocol.FileInfoTypeDirectory && len(entry.SymlinkTarget) > 0 {
		return errors.New("it is a directory with a target")
	}
	return nil
}

// blocksOf gives a file's block hashes, where they are those of a file of its size.
func blocksOf(entry *protocol.FileInfo) ([][32]byte, error) {
	size := int64(entry.BlockSize())
	switch {
	case len(entry.SymlinkTarget) > 0:
		return nil, errors.New("it is a file with a target")
	case entry.Size < 0:
		return nil, fmt.Errorf("its size is %d", entry.Size)
	case !isBlockSize(entry.BlockSize()):
		return nil, fmt.Errorf("its block size is %d, which Syncthing hasn't", size)
	case int64(len(entry.Blocks)) != part.CountOfBlocks(entry.Size, size):
		return nil, fmt.Errorf("its %d blocks don't fit its size of %d", len(entry.Blocks), entry.Size)
	}
	hashes := make([][32]byte, len(entry.Blocks))
	for place, block := range entry.Blocks {
		offset := int64(place) * size
		length := entry.Size - offset
		if length > size {
			length = size
		}
		if block.Offset != offset || int64(block.Size) != length || len(block.Hash) != len(hashes[place]) {
			return nil, fmt.Errorf("its block %d doesn't fit its size of %d", place, entry.Size)
		}
		copy(hashes[place][:], block.Hash)
	}
	if entry.Size == 0 && part.Hash(hashes[0]).String() != hashOfNothing {
		return nil, errors.New("it is empty, and its block isn't that of nothing")
	}
	return hashes, nil
}

// hashOfNothing is the SHA-256 hash of no bytes, that of an empty file's one block.
const hashOfNothing = "e3b0c44298fc1c149afbf4c8996fb92427ae41e4649b934ca495991b7852b855"

// isBlockSize says whether Syncthing cuts files into blocks of this size.
func isBlockSize(size int) bool {
	for _, blockSize := range protocol.BlockSizes {
		if blockSize == size {
			return true
		}
	}
	return false
}
