package command

import (
	"os"
	"regexp"
	"strings"
	"testing"

	"syncthing-audit/commandline"
	"syncthing-audit/part"
)

var flagWord = regexp.MustCompile(`--?[a-z][a-z-]*`)

// flagsOf gives the flags that a text tells.
func flagsOf(text string) map[string]bool {
	found := map[string]bool{}
	for _, word := range flagWord.FindAllString(text, -1) {
		if strings.HasPrefix(word, "--") || word == "-o" {
			found[word] = true
		}
	}
	return found
}

// The man page has each flag of the help and each kind, and no other flag.
func TestManual(t *testing.T) {
	page, err := os.ReadFile("../../../syncthing-audit.1")
	if err != nil {
		t.Fatal(err)
	}
	text := strings.ReplaceAll(string(page), `\-`, "-")
	inHelp, inPage := flagsOf(commandline.Usage), flagsOf(text)
	for word := range inHelp {
		if !inPage[word] {
			t.Errorf("the man page has no %s", word)
		}
	}
	for word := range inPage {
		if !inHelp[word] {
			t.Errorf("the help has no %s", word)
		}
	}
	for _, kind := range part.Kinds {
		if !regexp.MustCompile(`\b` + kind + `\b`).MatchString(text) {
			t.Errorf("the man page has no kind %s", kind)
		}
	}
}
