package part

import (
	"encoding/hex"
	"encoding/json"
	"strings"
	"testing"

	"syncthing-audit/shell"
)

// What stands for a name is the same on each device, another one in each folder and for each name, and is behind all names.
func TestHiddenNames(t *testing.T) {
	one := HiddenName("docs", "secret/diary").Bytes()
	if one != HiddenName("docs", "secret/diary").Bytes() {
		t.Error("one name has two hashes")
	}
	for _, other := range []Bytes{HiddenName("pics", "secret/diary").Bytes(), HiddenName("docs", "secret/diarx").Bytes()} {
		if other == one {
			t.Error("two names have one hash")
		}
	}
	longest := strings.Repeat("\xff", 255)
	for _, name := range []string{"", "a", "\U0010ffff", longest, longest + "/" + longest} {
		if one <= Bytes(name) {
			t.Errorf("it comes before %q", name)
		}
	}
	text, err := json.Marshal(one)
	var read Bytes
	if err != nil || strings.Contains(string(text), "diary") || json.Unmarshal(text, &read) != nil || read != one {
		t.Errorf("%s, %q, %v", text, read, err)
	}
}

// What stands for a name is in the parts of all releases the same: the begin of the SHA-256 of the kind, the folder and the name.
func TestWhatStandsForANameInAllReleases(t *testing.T) {
	for expected, hidden := range map[string]Hidden{"0a659603757cc4e037a46f5f5f890c16": HiddenName("docs", "secret/diary"), "d13c96c9fa9011f4b0c5510000576d1f": HiddenLongName("docs", "secret/diary")} {
		if is := hex.EncodeToString(hidden[:]); is != expected {
			t.Errorf("%s, not %s", is, expected)
		}
	}
}

// A name has a hash in its place where it is longer than any path, or would stand among the hashes.
func TestNamesWithAHashInTheirPlace(t *testing.T) {
	last := shell.BehindNames[1:] + "\xfe"
	for name, is := range map[string]bool{"": false, "a": false, strings.Repeat("a", MostNameBytes): false, strings.Repeat("a", MostNameBytes+1): true,
		last: false, last + "\xff": false, shell.BehindNames: true, shell.BehindNames + "a": true} {
		if IsLongName(name) != is {
			t.Errorf("%d bytes, %.9q: expected %v", len(name), name, is)
		}
	}
}
