package summary

import (
	"fmt"
	"strings"
	"testing"
)

// Running text is broken between words alone, and has the same words in the same order.
func TestWordsOfText(t *testing.T) {
	for text, words := range map[string][]string{
		"it isn't there":                        {"it", "isn't", "there"},
		"move 'a b' away":                       {"move", "'a b'", "away"},
		"the devices' (see 'a b'), too":         {"the", "devices'", "(see", "'a b'),", "too"},
		`'it'\''s a b' here`:                    {`'it'\''s a b'`, "here"},
		`\''a b'\\'c d'`:                        {`\''a b'\\'c d'`},
		"'tis no quote":                         {"'tis", "no", "quote"},
		"choose 'Ignore Permissions' or 'x'. A": {"choose", "'Ignore Permissions'", "or", "'x'.", "A"},
		"a  b":                                  {"a", "", "b"},
		"":                                      {""},
	} {
		if parts := wordsOfText(text); fmt.Sprintf("%q", parts) != fmt.Sprintf("%q", words) || strings.Join(parts, " ") != text {
			t.Errorf("%q: %q", text, parts)
		}
	}
}
