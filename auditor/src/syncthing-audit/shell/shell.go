// Package shell gives names so that they can be pasted into a shell. Sh, dash, bash, zsh and fish read what it gives as the same words.
//
// In all of them a text in single quotes stands for itself, but for two characters: a single quote ends it, and fish takes a backslash before
// either for an escape. So each of these two stands outside of quotes, behind a backslash: 'it'\”s'. There is no $'..', which dash and fish don't
// know, and no word without quotes of more than ASCII letters, digits and _./+:,@-.
//
// Some names can't be typed in one way in all of these shells: those with a newline or another control character, with one that turns text around, or
// with bytes that aren't UTF-8. Printed as it is, such a name would move the terminal's cursor. So it is given for reading: in one quoted word that
// says so, with \x and two digits for each byte that can't be typed, for a backslash and for a single quote. No shell does anything with that word.
// The word of no other name is like it, since none has a backslash within quotes. To reach such a file, choose it in a file manager, or by a pattern of
// the shell, * in place of these bytes, after seeing that it fits that file alone.
package shell

import (
	"fmt"
	"strings"
	"unicode"
	"unicode/utf8"
)

// Path gives the name of a file, relative to its folder, as a word of a command. One that begins with a dash would be an
// option there. A hash in a name's place is told as one.
func Path(name string) string {
	if told := hashed(name); told != "" {
		return told
	}
	if strings.HasPrefix(name, "-") {
		name = "./" + name
	}
	return Quoted(name)
}

// Named gives the name of a file that a word of a command stands for: none begins with a dot and a slash but one that Path gave these.
func Named(word string) string {
	if rest := strings.TrimPrefix(word, "./"); rest != "" {
		return rest
	}
	return word
}

// Quoted gives a text as one word that moves no terminal's cursor.
func Quoted(name string) string {
	switch {
	case isPlain(name):
		return name
	case !CanBeTyped(name):
		return "'" + notToBeTyped + escaped(name) + "]'"
	}
	return Exact(name)
}

// Exact gives a text as one word for a shell alone, and no person: newlines and other bytes that no one can type stand in it as they are.
func Exact(text string) string {
	if text == "" {
		return "''"
	}
	var quoted strings.Builder
	for text != "" {
		end := strings.IndexAny(text, `'\`)
		if end < 0 {
			end = len(text)
		}
		if end > 0 {
			quoted.WriteString("'" + text[:end] + "'")
		}
		if end < len(text) {
			quoted.WriteString(`\` + text[end:end+1])
			end++
		}
		text = text[end:]
	}
	return quoted.String()
}

// HasOneForReading says whether a text has a name that is given for reading.
func HasOneForReading(text string) bool { return strings.Contains(text, notToBeTyped) }

// notToBeTyped stands before a name that is given for reading.
const notToBeTyped = "[not-for-typing:"

// escaped gives a name for reading.
func escaped(name string) string {
	var text strings.Builder
	for name != "" {
		character, length := utf8.DecodeRuneInString(name)
		if strings.ContainsRune(`'\`, character) || !CanBeTyped(name[:length]) {
			for _, octet := range []byte(name[:length]) {
				fmt.Fprintf(&text, `\x%02x`, octet)
			}
		} else {
			text.WriteString(name[:length])
		}
		name = name[length:]
	}
	return text.String()
}

// Word gives a word of a command, where one that begins with a dash is an option.
func Word(text string) string {
	if rest := strings.TrimLeft(text, "-"); rest != text && (rest == "" || isPlain(rest)) {
		return text
	}
	return Quoted(text)
}

// Words gives a command.
func Words(words []string) string {
	quoted := []string{}
	for _, word := range words {
		quoted = append(quoted, Word(word))
	}
	return strings.Join(quoted, " ")
}

// ExactWords gives a command for a shell alone.
func ExactWords(words []string) string {
	quoted := []string{}
	for _, text := range words {
		if CanBeTyped(text) {
			quoted = append(quoted, Word(text))
		} else {
			quoted = append(quoted, Exact(text))
		}
	}
	return strings.Join(quoted, " ")
}

// isPlain says whether a text needs no quotes. One that begins with a dash does.
func isPlain(name string) bool {
	const letters = "ABCDEFGHIJKLMNOPQRSTUVWXYZabcdefghijklmnopqrstuvwxyz0123456789"
	isOther := func(character rune) bool { return !strings.ContainsRune(letters+"_./+:,@-", character) }
	return name != "" && name[0] != '-' && strings.IndexFunc(name, isOther) < 0
}

// CanBeTyped says whether a text is one that a person can type or paste, in each shell.
func CanBeTyped(text string) bool {
	for place, character := range text {
		if character == utf8.RuneError && !strings.HasPrefix(text[place:], string(utf8.RuneError)) || !unicode.IsPrint(character) {
			return false
		}
	}
	return true
}

// Printable gives a device's name, or a folder's label, without what moves a terminal's cursor.
func Printable(name string) string {
	return strings.Map(func(letter rune) rune {
		if !unicode.IsPrint(letter) {
			return '?'
		}
		return letter
	}, name)
}
