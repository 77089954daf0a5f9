package damage

import (
	"crypto/sha256"
	"testing"

	"github.com/syncthing/syncthing/lib/protocol"
	"syncthing-audit/part"
)

// Of what isn't there, isn't a file, or wasn't read, nobody says that it looks damaged.
func TestWhatCannotLookDamaged(t *testing.T) {
	const size = protocol.MinBlockSize
	zeros := hashOfZeros(size)
	record := func() *part.Record {
		return &part.Record{Content: &part.Content{Size: size, BlockSize: size, Hash: part.Hash{1}}}
	}
	found := func() *part.Node {
		return &part.Node{ModifiedS: 1, Size: size, Contents: []part.Content{{Size: size, BlockSize: size, Hash: part.Hash{2}}},
			Differ: &part.Differ{Count: 1, Ranges: [][2]int64{{0, 0}}, First: part.Pair{Recorded: &part.Hash{1}, Found: &zeros}}}
	}
	for why, row := range map[string]struct {
		record *part.Record
		change func(*part.Node)
		is     Kind
	}{
		"a block of zeros":                  {record(), func(*part.Node) {}, ZeroBlock},
		"no record":                         {nil, func(*part.Node) {}, None},
		"a record without a content":        {&part.Record{}, func(*part.Node) {}, None},
		"a directory":                       {record(), func(n *part.Node) { n.Type = 1 }, None},
		"a file that wasn't read":           {record(), func(n *part.Node) { n.Contents = nil }, None},
		"a file without blocks that differ": {record(), func(n *part.Node) { n.Differ = nil }, None},
		"no hash of what is found":          {record(), func(n *part.Node) { n.Differ.First.Found = nil }, None},
		"no hash of what is recorded":       {record(), func(n *part.Node) { n.Differ.First.Recorded = nil }, None},
		"no range":                          {record(), func(n *part.Node) { n.Differ.Ranges = nil }, None},
		"a block behind the file's end":     {record(), func(n *part.Node) { n.Differ.Ranges = [][2]int64{{1, 1}} }, None},
		"the last byte of a file": {record(), func(n *part.Node) {
			n.Size++
			n.Differ.Ranges = [][2]int64{{1, 1}}
			last := hashOfZeros(1)
			n.Differ.First.Found = &last
		}, ZeroBlock},
		"another hash": {record(), func(n *part.Node) { n.Differ.First.Found = &part.Hash{3} }, None},
	} {
		node := found()
		row.change(node)
		if is := Of(row.record, node); is != row.is {
			t.Errorf("%s: %q, not %q", why, is, row.is)
		}
	}
	if Of(record(), nil) != None {
		t.Error("what isn't there looks damaged")
	}
	for _, kind := range append([]Kind{None}, Kinds...) {
		if kind.MayBeOfRecord() != (kind == OverZeros || kind == Longer) {
			t.Errorf("%q may be of the record: %v", kind, kind.MayBeOfRecord())
		}
	}
}

// A content is that of zeros alone if its size and its blocks are, and no larger than is tried.
func TestContentsOfZeros(t *testing.T) {
	for _, size := range []int64{1, protocol.MinBlockSize, protocol.MinBlockSize + 1, 3 * protocol.MinBlockSize, mostBlocks * protocol.MinBlockSize} {
		content := part.Content{Size: size, BlockSize: protocol.MinBlockSize}
		if isZeros(content) {
			t.Errorf("%d bytes of another hash are zeros", size)
		}
		var blocks []byte
		for left := size; left > 0; left -= protocol.MinBlockSize {
			length := left
			if length > protocol.MinBlockSize {
				length = protocol.MinBlockSize
			}
			block := hashOfZeros(length)
			blocks = append(blocks, block[:]...)
		}
		content.Hash = sha256.Sum256(blocks)
		if !isZeros(content) {
			t.Errorf("%d zeros aren't", size)
		}
		if content.BlockSize = 1; isZeros(content) {
			t.Error("blocks of one byte are tried")
		}
	}
	if isZeros(part.Content{BlockSize: protocol.MinBlockSize}) || isZeros(part.Content{Size: (mostBlocks + 1) * protocol.MinBlockSize, BlockSize: protocol.MinBlockSize}) {
		t.Error("an empty file, or one of too many blocks, is tried")
	}
}

// A block is of zeros if what was found or recorded there has their hash, and both are there. The last block has the length that is left: nothing of a file
// without bytes.
func TestBlocksOfZeros(t *testing.T) {
	pair := func(recorded, found *part.Hash, place int64) *part.Node {
		return &part.Node{Differ: &part.Differ{Count: 1, First: part.Pair{Recorded: recorded, Found: found}, Ranges: [][2]int64{{place, place + 2}, {place + 5, place + 5}}}}
	}
	whole, one, none, other := hashOfZeros(protocol.MinBlockSize), hashOfZeros(1), hashOfZeros(0), part.Hash{7}
	for place, row := range []struct {
		disk     *part.Node
		size     int64
		has, had bool
	}{
		{pair(&other, &whole, 0), protocol.MinBlockSize, true, false}, {pair(&whole, &other, 0), protocol.MinBlockSize, false, true},
		{pair(&whole, nil, 0), protocol.MinBlockSize, false, false}, {pair(nil, &whole, 0), protocol.MinBlockSize, false, false}, {pair(nil, nil, 0), protocol.MinBlockSize, false, false},
		{pair(&other, &one, 1), protocol.MinBlockSize + 1, true, false}, {pair(&one, &other, 1), protocol.MinBlockSize + 1, false, true},
		{pair(&other, &whole, 1), protocol.MinBlockSize + 1, false, false}, {pair(&other, &none, 0), 0, false, false}, {pair(&none, &other, 1), protocol.MinBlockSize, false, false},
		{&part.Node{}, protocol.MinBlockSize, false, false}, {&part.Node{Differ: &part.Differ{First: part.Pair{Recorded: &whole, Found: &whole}}}, protocol.MinBlockSize, false, false},
	} {
		row.disk.Size = row.size
		row.disk.Contents = []part.Content{{Size: row.size, BlockSize: protocol.MinBlockSize}}
		content := &part.Content{Size: row.size, BlockSize: protocol.MinBlockSize}
		if has, had := hasZeros(row.disk, content), hadZeros(row.disk, content); has != row.has || had != row.had {
			t.Errorf("%d: it has zeros: %v, and had: %v", place, has, had)
		}
	}
}
