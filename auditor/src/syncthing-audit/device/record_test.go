package device

import (
	"crypto/sha256"
	"encoding/hex"
	"reflect"
	"testing"

	"github.com/syncthing/syncthing/lib/protocol"
	"syncthing-audit/adapt"
	"syncthing-audit/part"
)

// helloHash is the SHA-256 hash of 'hello'.
const helloHash = "2cf24dba5fb0a30e26e83b2ac5b9e29e1b161e5c1fa7425e73043362938b9824"

// hello gives the entry of a file of 5 bytes, after a change.
func hello(change func(*protocol.FileInfo)) protocol.FileInfo {
	hash := sha256.Sum256([]byte("hello"))
	entry := protocol.FileInfo{Name: "hello", Size: 5, ModifiedS: -7, ModifiedNs: 8, ModifiedBy: 9, Sequence: 3,
		Version: vector(2, 1, 1, 4), Blocks: []protocol.BlockInfo{{Size: 5, Hash: hash[:]}}, RawBlockSize: protocol.MinBlockSize}
	change(&entry)
	return entry
}

// vector gives a version of these pairs of device and value.
func vector(pairs ...uint64) protocol.Vector {
	var made protocol.Vector
	for next := 0; next < len(pairs); next += 2 {
		made.Counters = append(made.Counters, protocol.Counter{ID: protocol.ShortID(pairs[next]), Value: pairs[next+1]})
	}
	return made
}

// manyCounters gives a version of so many counters.
func manyCounters(count uint64) protocol.Vector {
	var pairs []uint64
	for id := uint64(1); id <= count; id++ {
		pairs = append(pairs, id, 1)
	}
	return vector(pairs...)
}

// helloRecord gives the record of the unchanged hello, after a change.
func helloRecord(change func(*part.Record)) part.Record {
	made := part.Record{ModifiedS: -7, ModifiedNs: 8, ModifiedBy: 9, Sequence: 3, Version: [][2]uint64{{1, 4}, {2, 1}},
		Content: contentOf(5, helloHash), Permissions: new(uint32)}
	change(&made)
	return made
}

// contentOf gives the content of a file of one block with this hash.
func contentOf(size int64, block string) *part.Content {
	hash, _ := hex.DecodeString(block)
	return &part.Content{Size: size, BlockSize: protocol.MinBlockSize, Hash: sha256.Sum256(hash)}
}

func TestRecords(t *testing.T) {
	nothing, _ := hex.DecodeString(hashOfNothing)
	noContent := func(r *part.Record) { r.Content, r.Permissions = nil, nil }
	cases := []struct {
		why    string
		entry  func(*protocol.FileInfo)
		record func(*part.Record)
	}{
		{"as it is, counters put in order", func(*protocol.FileInfo) {}, func(*part.Record) {}},
		{"an old entry without a block size has the usual one", func(e *protocol.FileInfo) { e.RawBlockSize = 0 }, func(*part.Record) {}},
		{"another of Syncthing's block sizes", func(e *protocol.FileInfo) { e.RawBlockSize = 2 * protocol.MinBlockSize },
			func(r *part.Record) { r.Content.BlockSize *= 2 }},
		{"of permissions the last nine bits count", func(e *protocol.FileInfo) { e.Permissions = 0o4755 }, func(r *part.Record) {
			bits := uint32(0o755)
			r.Permissions = &bits
		}},
		{"a local change without a version", func(e *protocol.FileInfo) {
			e.LocalFlags, e.Version = protocol.FlagLocalReceiveOnly, protocol.Vector{}
		}, func(r *part.Record) { r.Invalid, r.Version = true, [][2]uint64{} }},
		{"no permissions", func(e *protocol.FileInfo) { e.NoPermissions = true }, func(r *part.Record) { r.Permissions = nil }},
		{"16 counters", func(e *protocol.FileInfo) { e.Version = manyCounters(16) }, func(r *part.Record) {
			r.Version = nil
			for id := uint64(1); id <= 16; id++ {
				r.Version = append(r.Version, [2]uint64{id, 1})
			}
		}},
		{"a deletion loses size, blocks and target", func(e *protocol.FileInfo) { e.Deleted = true; adapt.SetText(&e.SymlinkTarget, "t") },
			func(r *part.Record) { noContent(r); r.Deleted = true }},
		{"a local change of a receive-only folder goes invalid and without version",
			func(e *protocol.FileInfo) { e.LocalFlags = protocol.FlagLocalReceiveOnly },
			func(r *part.Record) { r.Invalid, r.Local, r.Version = true, r.Version, [][2]uint64{} }},
		{"one whose version no document has goes so, too", func(e *protocol.FileInfo) {
			e.LocalFlags, e.Version = protocol.FlagLocalReceiveOnly, manyCounters(17)
		}, func(r *part.Record) { r.Invalid, r.Version = true, [][2]uint64{} }},
		{"an invalid one stays so", func(e *protocol.FileInfo) { e.RawInvalid = true }, func(r *part.Record) { r.Invalid = true }},
		{"a directory", func(e *protocol.FileInfo) { e.Type, e.Size, e.Blocks = protocol.FileInfoTypeDirectory, 0, nil },
			func(r *part.Record) { r.Type, r.Content = 1, nil }},
		{"a symlink", func(e *protocol.FileInfo) {
			e.Type, e.Size, e.Blocks = protocol.FileInfoTypeSymlink, 0, nil
			adapt.SetText(&e.SymlinkTarget, "t")
		}, func(r *part.Record) { noContent(r); r.Type, r.Target = 4, "t" }},
		{"an empty file has one block", func(e *protocol.FileInfo) { e.Size, e.Blocks = 0, []protocol.BlockInfo{{Hash: nothing}} },
			func(r *part.Record) { r.Content = contentOf(0, hashOfNothing) }},
	}
	for _, one := range cases {
		own := hello(one.entry)
		made := ownEntry(&own)
		if expected := helloRecord(one.record); made.Out != nil || !reflect.DeepEqual(*made.Record, expected) {
			t.Errorf("%s: %+v, %v; expected %+v", one.why, made.Record, made.Out, expected)
		}
	}
}
