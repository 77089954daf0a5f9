package outside

import (
	"encoding/json"
	"errors"
	"strings"
	"testing"
)

func TestEscaped(t *testing.T) {
	for text, told := range map[string]string{"plain ä 漢 \ufffd": "plain ä 漢 \ufffd", "\x1b[2J": `\x1b[2J`, "\u009b2J": `\xc2\x9b2J`, "a\u202eb": `a\xe2\x80\xaeb`,
		"a\nb": `a\x0ab`, "\xff\x9b": `\xff\x9b`, "\x7f\b": `\x7f\x08`, "\u2028\u061c\u200f\u2066": `\xe2\x80\xa8\xd8\x9c\xe2\x80\x8f\xe2\x81\xa6`, "a\\n": `a\n`} {
		if Escaped(text) != told || Escaped(told) != told {
			t.Errorf("%q is printed as %s, not %s", text, Escaped(text), told)
		}
	}
}

// A format's newlines are the program's, those of words aren't, whatever the words are of, and by whichever verb they are printed.
func TestPrintf(t *testing.T) {
	type text string
	var to strings.Builder
	Printf(&to, "%s %v %q %8s|%-4s|%.2s %d %5.1f\n", text("a\nb"), errors.New("\x1b"), "\r", "\t", "c", "\n\n\n", 7, 1.25)
	Println(&to, []string{"\u202e", "x"})
	Print(&to, "one\n\x07two\n")
	if told := `a\x0ab \x1b "\r"        \x09|c   |\x0a\x0a 7   1.2` + "\n" + `[\xe2\x80\xae x]` + "\none\n\\x07two\n"; to.String() != told {
		t.Errorf("%q, not %q", to.String(), told)
	}
}

// What is printed as JSON is read as it was, and has nothing raw.
func TestPrintJSON(t *testing.T) {
	var to strings.Builder
	const text = "\x1b\u009b\u202e\n\x7f\u2028<\U000e0041ä"
	if err := PrintJSON(&to, map[string]string{text: text}); err != nil {
		t.Fatal(err)
	}
	var read map[string]string
	if err := json.Unmarshal([]byte(to.String()), &read); err != nil || read[text] != text {
		t.Errorf("%q: %v", to.String(), err)
	}
	if line := strings.TrimSuffix(to.String(), "\n"); Escaped(line) != line || !strings.Contains(line, "<") {
		t.Errorf("%q", line)
	}
}

// full is what takes nothing.
type full struct{}

var errFull = errors.New("no space left")

func (full) Write([]byte) (int, error) { return 0, errFull }

// Who prints hears that nothing was taken, and of a value that is none in JSON.
func TestWhatIsNotPrinted(t *testing.T) {
	for what, err := range map[string]error{"Printf": Printf(full{}, "%s", "a"), "Println": Println(full{}, 7), "Print": Print(full{}, "a"), "PrintJSON": PrintJSON(full{}, "a")} {
		if !errors.Is(err, errFull) {
			t.Errorf("%s: %v", what, err)
		}
	}
	var to strings.Builder
	if err := PrintJSON(&to, func() {}); err == nil || to.String() != "" {
		t.Errorf("%q, %v", to.String(), err)
	}
}
