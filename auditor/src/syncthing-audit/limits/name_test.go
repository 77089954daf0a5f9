package limits

import (
	"strings"
	"testing"
)

func TestCheckName(t *testing.T) {
	cases := []struct {
		name string
		good bool
		why  string
	}{
		{"a", true, "one part"},
		{"a b/ü.txt", true, "two parts, UTF-8"},
		{"...", true, "three dots are a name like any other"},
		{strings.Repeat("x", 1024), true, "as long as may be"},
		{strings.Repeat("x", 1025), false, "a byte too long"},
		{strings.Repeat("ü", 513), false, "length counts bytes"},
		{"", false, "empty"},
		{"/a", false, "an empty first part"},
		{"a/", false, "an empty last part"},
		{"a//b", false, "an empty part"},
		{"a/./b", false, "a part '.'"},
		{"..", false, "a part '..'"},
		{"a\x00b", false, "a NUL"},
		{"a\xff", false, "not UTF-8"},
	}
	for _, one := range cases {
		if err := CheckName(one.name); (err == nil) != one.good {
			t.Errorf("%.20q (%s): %v", one.name, one.why, err)
		}
	}
}

func TestCheckTarget(t *testing.T) {
	cases := []struct {
		target string
		good   bool
	}{
		{"../a//b", true}, {strings.Repeat("x", 1024), true}, {strings.Repeat("x", 1025), false},
		{"", false}, {"a\x00", false}, {"\xff", false},
	}
	for _, one := range cases {
		if err := CheckTarget(one.target); (err == nil) != one.good {
			t.Errorf("%.20q: %v", one.target, err)
		}
	}
}

func TestIsFolderID(t *testing.T) {
	cases := []struct {
		id   string
		good bool
	}{
		{"abcd-1234", true}, {"_", true}, {strings.Repeat("Z", 64), true}, {strings.Repeat("Z", 65), false},
		{"", false}, {"a b", false}, {"ü", false}, {"a.b", false},
	}
	for _, one := range cases {
		if IsFolderID(one.id) != one.good {
			t.Errorf("%.20q: expected %v", one.id, one.good)
		}
	}
}

// A text of as many bytes as a name may have stays as it is. Of a longer one the rest is cut off, and no letter in two.
func TestCut(t *testing.T) {
	for length, text := range map[string]string{
		"": "", "a": "a", strings.Repeat("x", MostNameBytes): strings.Repeat("x", MostNameBytes),
		strings.Repeat("x", MostNameBytes+1):                strings.Repeat("x", MostNameBytes) + "…",
		strings.Repeat("x", MostNameBytes-1) + "ü":          strings.Repeat("x", MostNameBytes-1) + "…",
		strings.Repeat("x", MostNameBytes-1) + "ü and more": strings.Repeat("x", MostNameBytes-1) + "…",
	} {
		if made := Cut(length); made != text {
			t.Errorf("%d bytes: %q", len(length), made)
		}
	}
}
