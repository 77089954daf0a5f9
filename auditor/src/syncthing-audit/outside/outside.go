// Package outside prints. Parts, indexes, replies, remote outputs, file names and configurations say what others chose, and a terminal obeys
// some of that. So each word that is printed goes through this package alone: whatever isn't printable in it is written as \xNN, byte by
// byte, as syncaudit writes names. A format is the program's own, and so are the newlines in it. A newline in a word is another's.
package outside

import (
	"fmt"
	"io"
	"strings"
	"unicode"
	"unicode/utf8"
)

// Printf prints words by a format of the program's own.
func Printf(to io.Writer, format string, words ...interface{}) error {
	_, err := fmt.Fprintf(to, format, wordsOf(words)...)
	return err
}

// Sprintf gives what Printf prints: for texts that are printed as the program's own.
func Sprintf(format string, words ...interface{}) string {
	return fmt.Sprintf(format, wordsOf(words)...)
}

// Println prints a line of one word.
func Println(to io.Writer, text interface{}) error { return Printf(to, "%v\n", text) }

// Print prints a text of the program's own, whose newlines stay.
func Print(to io.Writer, text string) error {
	_, err := io.WriteString(to, escaped(text, true, octets))
	return err
}

// Escaped gives a word without what a terminal obeys.
func Escaped(text string) string { return escaped(text, false, octets) }

// wordsOf gives words as they are printed. Numbers have nothing to escape.
func wordsOf(words []interface{}) []interface{} {
	clean := make([]interface{}, len(words))
	for place, given := range words {
		switch value := given.(type) {
		case bool, int, int64, uint64, float64:
			clean[place] = value
		default:
			clean[place] = word{value}
		}
	}
	return clean
}

// word is what is printed in place of a value: the same, escaped.
type word struct{ value interface{} }

// Format formats a word for any verb, such as %q or %v.
func (w word) Format(to fmt.State, verb rune) {
	io.WriteString(to, Escaped(fmt.Sprintf(directive(to, verb), w.value)))
}

// directive gives what stood in the format.
func directive(state fmt.State, verb rune) string {
	text := "%"
	for _, flag := range "+-# 0" {
		if state.Flag(int(flag)) {
			text += string(flag)
		}
	}
	if width, has := state.Width(); has {
		text += fmt.Sprint(width)
	}
	if precision, has := state.Precision(); has {
		text += fmt.Sprint(".", precision)
	}
	return text + string(verb)
}

// escaped gives a text in which what isn't printable is written otherwise. The program's own text keeps its newlines.
func escaped(text string, isOwn bool, otherwise func(*strings.Builder, string)) string {
	if isPrintable(text, isOwn) {
		return text
	}
	var clean strings.Builder
	for text != "" {
		letter, length := utf8.DecodeRuneInString(text)
		if mayPrint(letter, length, isOwn) {
			clean.WriteString(text[:length])
		} else {
			otherwise(&clean, text[:length])
		}
		text = text[length:]
	}
	return clean.String()
}

func isPrintable(text string, isOwn bool) bool {
	for place, letter := range text {
		if letter == utf8.RuneError && !strings.HasPrefix(text[place:], string(utf8.RuneError)) || !mayPrint(letter, utf8.UTFMax, isOwn) {
			return false
		}
	}
	return true
}

// mayPrint says whether a character of so many bytes only takes its place on a terminal, and turns no text around. A byte that is no
// character has one.
func mayPrint(letter rune, length int, isOwn bool) bool {
	return unicode.IsPrint(letter) && (letter != utf8.RuneError || length > 1) || isOwn && letter == '\n'
}

// octets writes bytes as syncaudit does in names.
func octets(to *strings.Builder, text string) {
	for _, octet := range []byte(text) {
		fmt.Fprintf(to, `\x%02x`, octet)
	}
}
