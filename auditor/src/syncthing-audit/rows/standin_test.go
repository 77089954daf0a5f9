package rows

import (
	"crypto/sha256"
	"strings"
	"testing"

	"syncthing-audit/part"
)

const (
	kilo128 = 128 << 10
	kilo256 = 256 << 10
)

func contentOf(size, blockSize int64, hash byte) *part.Content {
	return &part.Content{Size: size, BlockSize: blockSize, Hash: part.Hash{hash}}
}

// textFor gives the stand-in of a content.
func textFor(content *part.Content) string { return string(appendStandIn(nil, content)) }

func TestStandIns(t *testing.T) {
	cases := []struct {
		why        string
		one, other *part.Content
		equal      bool
	}{
		{"the same", contentOf(kilo256+1, kilo128, 1), contentOf(kilo256+1, kilo128, 1), true},
		{"other hashes", contentOf(5, kilo128, 1), contentOf(5, kilo128, 2), false},
		{"another size", contentOf(5, kilo128, 1), contentOf(6, kilo128, 1), false},
		{"one block is one block, whatever its size could be", contentOf(kilo128, kilo128, 1), contentOf(kilo128, kilo256, 1), true},
		{"one block and two", contentOf(kilo256, kilo128, 1), contentOf(kilo256, kilo256, 1), false},
		{"blocks of two sizes", contentOf(kilo256+1, kilo128, 1), contentOf(kilo256+1, kilo256, 1), false},
	}
	for _, one := range cases {
		if (textFor(one.one) == textFor(one.other)) != one.equal {
			t.Errorf("%s: %s, %s", one.why, textFor(one.one), textFor(one.other))
		}
		if one.one.IsSame(one.other) != one.equal || one.other.IsSame(one.one) != one.equal {
			t.Errorf("%s: the same: %v", one.why, !one.equal)
		}
	}
	if length := len(textFor(contentOf(1<<63-1, 16<<20, 0))); length >= 128 {
		t.Errorf("a stand-in has %d bytes", length)
	}
}

// A file whose bytes are cut in two ways has the content of the record that one of them gives, the own one first; whoever has none, or an invalid one, says nothing.
func TestContentOnDisk(t *testing.T) {
	first, second := *contentOf(kilo256, kilo128, 1), *contentOf(kilo256, kilo256, 2)
	recorded := func(content *part.Content) *part.Name { return &part.Name{Own: &part.Record{Content: content}} }
	other, one, two, directory := recorded(contentOf(kilo256, kilo128, 3)), recorded(&first), recorded(&second), recorded(nil)
	invalid, none := &part.Name{Own: &part.Record{Content: &second, Invalid: true}}, &part.Name{}
	for _, row := range []struct {
		why    string
		own    *part.Name
		others []*part.Name
		is     part.Content
	}{
		{"as recorded there", one, []*part.Name{two}, first},
		{"as recorded there, if it is invalid, and by nobody else", invalid, []*part.Name{none}, first},
		{"as recorded elsewhere", other, []*part.Name{two}, second},
		{"as recorded elsewhere by one of several", other, []*part.Name{nil, none, directory, other, two}, second},
		{"as recorded in both ways", other, []*part.Name{two, one}, first},
		{"as recorded nowhere", other, []*part.Name{other}, first},
		{"as an invalid record says", other, []*part.Name{invalid}, first},
		{"without a record", none, []*part.Name{two}, second},
		{"of a directory", directory, []*part.Name{two}, second},
	} {
		own := &part.Name{Own: row.own.Own, Disk: &part.Node{Contents: []part.Content{first, second}}}
		if content := contentOnDisk(append([]*part.Name{own}, row.others...), 0); *content != row.is {
			t.Errorf("%s: %s", row.why, textFor(content))
		}
	}
}

// A writer gives the stand-in of each content, whichever it gave before, also of the least one there is.
func TestStandInsInARow(t *testing.T) {
	contents := []*part.Content{{}, contentOf(5, kilo128, 1), contentOf(5, kilo128, 2)}
	for _, first := range contents {
		for _, second := range contents {
			for _, third := range contents {
				var made writer
				for place, content := range []*part.Content{first, second, third} {
					stands := made.standInOf(content)
					if text := textFor(content); string(stands.text) != text || stands.block[0] != sha256.Sum256([]byte(text)) {
						t.Errorf("number %d: %s, not %s", place, stands.text, text)
					}
				}
			}
		}
	}
}

// A stand-in stands in a document as text, which says how the file is cut where it has several blocks.
func TestStandInIsText(t *testing.T) {
	zeros := strings.Repeat("00", 31)
	for due, content := range map[string]*part.Content{
		"5 bytes in one block: 01" + zeros: contentOf(5, kilo128, 1), "262144 bytes in one block: 0f" + zeros: contentOf(kilo256, kilo256, 0x0f), "0 bytes in one block: 00" + zeros: {},
		"262144 bytes in blocks of 131072: f0" + zeros: contentOf(kilo256, kilo128, 0xf0), "262145 bytes in blocks of 262144: ab" + zeros: contentOf(kilo256+1, kilo256, 0xab),
	} {
		if text, digits := textOrHex([]byte(textFor(content))); digits != "" || text != due {
			t.Errorf("%q, not %q", text, due)
		}
	}
}
