package shell

import (
	"bytes"
	"fmt"
	"math/rand"
	"os"
	"os/exec"
	"path/filepath"
	"strings"
	"testing"
	"unicode/utf8"
)

// shells read the words of this package as the same ones; zsh with each of the options that change what quotes and bare words mean.
var shells = [][]string{{"sh"}, {"dash"}, {"bash"}, {"bash", "-O", "extglob"}, {"zsh", "-f"}, {"zsh", "-f", "-o", "extendedglob", "-o", "rcquotes", "-o", "braceccl"}, {"fish", "--no-config"}}

// hostilePieces are what names are made of here: all that any of the shells takes for more than a letter.
var hostilePieces = []string{"'", "''", `\`, `\\`, `\'`, `'\''`, "\"", "\n", "\r", "\t", " ", "  ", "$", "$()", "$(>&2 echo ran)", "`", "`>&2 echo ran`", "${x}", "$HOME", "!", "!!",
	"!$", "-", "--", "~", "~root", "%", "%self", "%1", "^", "^x^y", "#", "&", "|", ";", "<", ">", "(", ")", "(echo ran)", "{a,b}", "{", "}", "[", "]", "[a-z]", "*", "?", "=", "=ls",
	":", ",", "@", "+", "@(x)", "(#q)", "a", "b7", "über", "漢字", "é", "e\u0301", "😀", "\ufffd", "\u00a0", "\u009b", "\u202e", "\u200b", "\uf600", "\uf6ff", "\ufdd0", "\xff", "\x80", "\x83", "\xc3",
	"\xed\xa0\x80", "\x01", "\x02", "\x1b[2J", "\x7f", "\x81", "\x88", `\x0a`, `\n`, `\012`, "nul", "if", "end", "..", ".", "/"}

// oddNames gives names as another device may have them: of such pieces, and of bytes as they come.
func oddNames(count int) []string {
	random := rand.New(rand.NewSource(1))
	names := append([]string{}, hostilePieces...)
	for len(names) < count {
		var name strings.Builder
		for pieces := 1 + random.Intn(6); pieces > 0; pieces-- {
			if random.Intn(4) == 0 {
				name.WriteByte(byte(1 + random.Intn(255)))
			} else {
				name.WriteString(hostilePieces[random.Intn(len(hostilePieces))])
			}
		}
		names = append(names, name.String())
	}
	return names
}

// inBatches has a shell print words, hundreds at once, and gives what each of them was to it.
func inBatches(t *testing.T, shell, words, locale []string) []string {
	const most = 3000
	path := filepath.Join(t.TempDir(), "script")
	read := []string{}
	for len(words) > 0 {
		count := most
		if count > len(words) {
			count = len(words)
		}
		script := "printf '%s\\0' " + strings.Join(words[:count], " ") + " end\n"
		if err := os.WriteFile(path, []byte(script), 0o600); err != nil {
			t.Fatal(err)
		}
		command := exec.Command(shell[0], append(shell[1:len(shell):len(shell)], path)...)
		var told bytes.Buffer
		command.Dir, command.Stderr, command.Env = t.TempDir(), &told, append(append(os.Environ(), "HOME="+t.TempDir()), locale...)
		output, err := command.Output()
		batch := strings.Split(string(output), "\x00")
		if err != nil || told.Len() > 0 || len(batch) != count+2 || batch[count] != "end" {
			t.Fatalf("%v: of %d words %d were read: %v: %.300s", shell, count, len(batch)-2, err, told.String())
		}
		read, words = append(read, batch[:count]...), words[count:]
	}
	return read
}

// eachShell does something with each shell that is installed, in two locales.
func eachShell(t *testing.T, do func(t *testing.T, shell, locale []string)) {
	installed := 0
	for _, shell := range shells {
		if _, err := exec.LookPath(shell[0]); err != nil {
			continue
		}
		installed++
		for _, locale := range []string{"LC_ALL=C.UTF-8", "LC_ALL=C"} {
			t.Run(fmt.Sprint(strings.Join(shell, " "), " ", locale), func(t *testing.T) { do(t, shell, []string{locale}) })
		}
	}
	if installed < 2 {
		t.Skip("fewer than two shells are installed")
	}
}

// Each shell reads a name's word as that name, or as the same text that says that the name can't be typed: no name runs a command, is an option
// or a pattern.
func TestEachShellReadsTheSameWord(t *testing.T) {
	names := oddNames(6000)
	words, due, typed := []string{}, []string{}, 0
	for _, name := range names {
		words, due = append(words, Path(name)), append(due, name)
		if strings.HasPrefix(name, "-") {
			due[len(due)-1] = "./" + name
		}
		if CanBeTyped(name) {
			typed++
		} else {
			due[len(due)-1] = notToBeTyped + escaped(due[len(due)-1]) + "]"
		}
	}
	if typed < 1000 || len(names)-typed < 1000 {
		t.Fatalf("%d of %d names can be typed", typed, len(names))
	}
	eachShell(t, func(t *testing.T, shell, locale []string) {
		checkWords(t, words, due, inBatches(t, shell, words, locale))
	})
}

func checkWords(t *testing.T, words, due, read []string) {
	wrong := 0
	for place := range words {
		if read[place] != due[place] {
			wrong++
			if wrong < 10 {
				t.Errorf("the word %s is read as %q, not %q", words[place], read[place], due[place])
			}
		}
	}
	if wrong > 0 {
		t.Errorf("%d words are read as others", wrong)
	}
}

// What is for a shell alone has each text as it is.
func TestEachShellReadsExactly(t *testing.T) {
	names, words := oddNames(6000), []string{}
	for _, name := range names {
		words = append(words, Exact(name))
	}
	eachShell(t, func(t *testing.T, shell, locale []string) {
		checkWords(t, words, names, inBatches(t, shell, words, locale))
	})
}

// A word has nothing that moves a cursor, two names have two words, and what is given for reading can be read back.
func TestWordsOfOddNames(t *testing.T) {
	had := map[string]string{}
	for _, name := range oddNames(6000) {
		word := Quoted(name)
		if other, is := had[word]; is && other != name {
			t.Errorf("%q and %q have one word: %s", name, other, word)
		}
		had[word] = name
		if !CanBeTyped(word) || !utf8.ValidString(word) || HasOneForReading(word) == CanBeTyped(name) {
			t.Errorf("%q has the word %q", name, word)
		}
	}
}
