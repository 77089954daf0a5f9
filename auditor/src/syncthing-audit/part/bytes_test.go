package part

import "testing"

// Hashes and names as text: each length but the right one is refused.
func TestTextsOfHashesAndNames(t *testing.T) {
	text, err := (Hash{1, 31: 0xff}).MarshalText()
	var hash Hash
	if err != nil || hash.UnmarshalText(text) != nil || hash != (Hash{1, 31: 0xff}) {
		t.Errorf("%s: %v", text, hash)
	}
	for _, wrong := range []string{"", string(text[1:]), string(text) + "0", "x" + string(text[1:])} {
		if hash.UnmarshalText([]byte(wrong)) == nil {
			t.Errorf("%s is read as a hash", wrong)
		}
	}
	for _, name := range []Bytes{"", "a", "\xff\x00a", "\"", "ü"} {
		var read Bytes
		text, err := name.MarshalJSON()
		if err != nil || read.UnmarshalJSON(text) != nil || read != name {
			t.Errorf("%q: %s is read as %q", name, text, read)
		}
	}
	for _, wrong := range []string{"", "1", `{"hex":"x"}`, `"`} {
		var read Bytes
		if read.UnmarshalJSON([]byte(wrong)) == nil {
			t.Errorf("%s is read as %q", wrong, read)
		}
	}
}
