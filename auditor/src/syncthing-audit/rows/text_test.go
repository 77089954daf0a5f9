package rows

import (
	"encoding/json"
	"strings"
	"testing"

	"syncthing-audit/part"
)

// recordOf gives the text of a record, with the name a.
func recordOf(withBytes bool, record *part.Record) string {
	made := &row{writer: writer{withBytes: withBytes}}
	made.begin("a")
	return string(made.record(made.placeOf(record, record.Sequence)))
}

// A record's block size is the one for the length of the file that the document has: of its bytes, or of a stand-in.
func TestBlockSizes(t *testing.T) {
	cases := []struct {
		size      int64
		withBytes bool
		has       string
	}{
		{5, true, `"size":5,"block_size":131072,`},
		{0, true, `,"sequence":7,"block_size":131072,`},
		{2000*kilo128 - 1, true, `,"block_size":131072,`},
		{2000 * kilo128, true, `,"block_size":262144,`},
		{1 << 40, true, `,"block_size":16777216,`},
		{1 << 40, false, `,"block_size":131072,`},
	}
	for _, one := range cases {
		written := recordOf(one.withBytes, &part.Record{Sequence: 7, Content: contentOf(one.size, kilo256, 1)})
		if !strings.Contains(written, one.has) {
			t.Errorf("%d bytes: %s", one.size, written)
		}
	}
	if written := recordOf(false, &part.Record{Sequence: 7, Deleted: true}); strings.Contains(written, "block_size") {
		t.Errorf("a file that is deleted: %s", written)
	}
}

func TestTextOrHex(t *testing.T) {
	cases := []struct{ data, text, digits string }{
		{"", "", ""}, {"hello\n\tyou", "hello\n\tyou", ""}, {"ü", "ü", ""}, {"a\r\n", "", "610d0a"},
		{"\x00", "", "00"}, {"\x7f", "", "7f"}, {"\xff", "", "ff"},
	}
	for _, one := range cases {
		if text, digits := textOrHex([]byte(one.data)); text != one.text || digits != one.digits {
			t.Errorf("%q: %q, %q", one.data, text, digits)
		}
	}
}

// A quoted text is JSON of that text, whichever letters stand in it, and what JSON doesn't have to escape stands there as it is.
func TestQuoted(t *testing.T) {
	for letter := rune(0); letter <= 0x180; letter++ {
		for _, text := range []string{string(letter), "a" + string(letter), string(letter) + "a", strings.Repeat(string(letter), 2)} {
			var read string
			written := quoted(text)
			if err := json.Unmarshal([]byte(written), &read); err != nil || read != text {
				t.Errorf("%q: %s, read as %q, %v", text, written, read, err)
			}
			if letter >= 0x20 && letter != '"' && letter != '\\' && written != `"`+text+`"` {
				t.Errorf("%q: %s", text, written)
			}
		}
	}
}
