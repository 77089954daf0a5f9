package device

import (
	"fmt"
	"math"
	"testing"

	"github.com/syncthing/syncthing/lib/protocol"
	"syncthing-audit/adapt"
)

// outOf gives what is told of an entry that is left out: its kind, its bytes and why.
func outOf(entry Entry) string {
	if entry.Out == nil {
		return ""
	}
	return fmt.Sprintf("%s, %d bytes: %s", entry.Out.Kind, entry.Out.Bytes, entry.Out.Why)
}

// What is told of each entry of which a document has no record, to the word; and that it has one of each that comes up to a limit.
func TestWhatIsToldOfEntriesWithoutARecord(t *testing.T) {
	symlink := func(target string) func(*protocol.FileInfo) {
		return func(e *protocol.FileInfo) {
			e.Type, e.Size, e.Blocks = protocol.FileInfoTypeSymlink, 0, nil
			adapt.SetText(&e.SymlinkTarget, target)
		}
	}
	large := func(change func(*protocol.FileInfo)) func(*protocol.FileInfo) {
		return func(e *protocol.FileInfo) {
			first, second := e.Blocks[0], e.Blocks[0]
			first.Size = protocol.MinBlockSize
			second.Offset, second.Size = protocol.MinBlockSize, 5
			e.Size, e.Blocks = protocol.MinBlockSize+5, []protocol.BlockInfo{first, second}
			change(e)
		}
	}
	for _, row := range []struct {
		told  string
		entry func(*protocol.FileInfo)
	}{
		{"", func(*protocol.FileInfo) {}},
		{"", func(e *protocol.FileInfo) { e.ModifiedNs = 0 }},
		{"", func(e *protocol.FileInfo) { e.ModifiedNs = 999999999 }},
		{"", func(e *protocol.FileInfo) { e.Version = vector(1, math.MaxInt64) }},
		{"", large(func(*protocol.FileInfo) {})},
		{"", symlink("t")},
		{"", func(e *protocol.FileInfo) { symlink("")(e); e.Deleted = true }},
		{"ignored, 5 bytes: it is ignored there by .stignore", func(e *protocol.FileInfo) { e.LocalFlags = protocol.FlagLocalIgnored }},
		{"ignored, 0 bytes: it is ignored there by .stignore", func(e *protocol.FileInfo) { e.LocalFlags, e.Deleted = protocol.FlagLocalIgnored, true }},
		{"ignored, 0 bytes: it is ignored there by .stignore", func(e *protocol.FileInfo) { e.LocalFlags, e.Size = protocol.FlagLocalIgnored, -1 }},
		{"ignored, 0 bytes: it is ignored there by .stignore", func(e *protocol.FileInfo) {
			e.LocalFlags, e.Type = protocol.FlagLocalIgnored, protocol.FileInfoTypeDirectory
		}},
		{"records, 5 bytes: its kind isn't supported there", func(e *protocol.FileInfo) { e.LocalFlags = protocol.FlagLocalUnsupported }},
		{"records, 5 bytes: it has local flags 0x400, which aren't known here", func(e *protocol.FileInfo) { e.LocalFlags = 1 << 10 }},
		{"rescan, 5 bytes: it waits for a scan: start Syncthing, let it finish, stop it", func(e *protocol.FileInfo) { e.LocalFlags = protocol.FlagLocalMustRescan }},
		{"names, 5 bytes: its name isn't UTF-8", func(e *protocol.FileInfo) { e.Name = "\xff" }},
		{"targets, 0 bytes: its target hasn't 1 to 1024 bytes", symlink("")},
		{"records, 0 bytes: its type is 2 (only files, directories and symlinks are had)", func(e *protocol.FileInfo) { e.Type = protocol.FileInfoTypeSymlinkFile }},
		{"records, 5 bytes: it is encrypted", func(e *protocol.FileInfo) { e.Encrypted = []byte{1} }},
		{"records, 5 bytes: its nanoseconds are over 999999999", func(e *protocol.FileInfo) { e.ModifiedNs = 1000000000 }},
		{"records, 5 bytes: its nanoseconds are over 999999999", func(e *protocol.FileInfo) { e.ModifiedNs = -1 }},
		{"records, 5 bytes: it doesn't say which device changed it", func(e *protocol.FileInfo) { e.ModifiedBy = 0 }},
		{"records, 5 bytes: its version has over 16 counters", func(e *protocol.FileInfo) { e.Version = manyCounters(17) }},
		{"records, 5 bytes: its version has a counter without device, of 0 or over 9223372036854775807", func(e *protocol.FileInfo) { e.Version = vector(0, 1) }},
		{"records, 5 bytes: its version has a counter without device, of 0 or over 9223372036854775807", func(e *protocol.FileInfo) { e.Version = vector(1, 0) }},
		{"records, 5 bytes: its version has a counter without device, of 0 or over 9223372036854775807", func(e *protocol.FileInfo) { e.Version = vector(1, 1<<63) }},
		{"records, 5 bytes: its version has two counters of one device", func(e *protocol.FileInfo) { e.Version = vector(3, 1, 2, 1, 3, 2) }},
		{"records, 5 bytes: its version has two counters of one device", func(e *protocol.FileInfo) { e.Version = vector(1, 1, 1, 2) }},
		{"records, 0 bytes: it has a size or blocks, and is no file", func(e *protocol.FileInfo) { e.Type, e.Size = protocol.FileInfoTypeDirectory, 0 }},
		{"records, 0 bytes: it has a size or blocks, and is no file", func(e *protocol.FileInfo) { e.Type, e.Blocks = protocol.FileInfoTypeDirectory, nil }},
		{"records, 0 bytes: it is a directory with a target", func(e *protocol.FileInfo) { symlink("t")(e); e.Type = protocol.FileInfoTypeDirectory }},
		{"records, 5 bytes: it is a file with a target", func(e *protocol.FileInfo) { adapt.SetText(&e.SymlinkTarget, "t") }},
		{"records, 0 bytes: its size is -1", func(e *protocol.FileInfo) { e.Size = -1 }},
		{"records, 5 bytes: its block size is 393216, which Syncthing hasn't", func(e *protocol.FileInfo) { e.RawBlockSize = 3 * protocol.MinBlockSize }},
		{"records, 5 bytes: its 0 blocks don't fit its size of 5", func(e *protocol.FileInfo) { e.Blocks = nil }},
		{"records, 6 bytes: its block 0 doesn't fit its size of 6", func(e *protocol.FileInfo) { e.Size = 6 }},
		{"records, 5 bytes: its block 0 doesn't fit its size of 5", func(e *protocol.FileInfo) { e.Blocks[0].Offset = 1 }},
		{"records, 5 bytes: its block 0 doesn't fit its size of 5", func(e *protocol.FileInfo) { e.Blocks[0].Hash = e.Blocks[0].Hash[:31] }},
		{"records, 131077 bytes: its block 1 doesn't fit its size of 131077", large(func(e *protocol.FileInfo) { e.Blocks[1].Size = 6 })},
		{"records, 131077 bytes: its block 1 doesn't fit its size of 131077", large(func(e *protocol.FileInfo) { e.Blocks[1].Offset-- })},
		{"records, 131077 bytes: its block 0 doesn't fit its size of 131077", large(func(e *protocol.FileInfo) { e.Blocks[0].Size-- })},
		{"records, 0 bytes: it is empty, and its block isn't that of nothing", func(e *protocol.FileInfo) { e.Size, e.Blocks[0].Size = 0, 0 }},
	} {
		own := hello(row.entry)
		made := ownEntry(&own)
		if told := outOf(made); told != row.told || (made.Record == nil) != (told != "") {
			t.Errorf("%s, not %s", told, row.told)
		}
	}
}
