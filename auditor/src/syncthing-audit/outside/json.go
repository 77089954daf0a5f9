package outside

import (
	"encoding/json"
	"fmt"
	"io"
	"strings"
	"unicode/utf16"
	"unicode/utf8"
)

// PrintJSON prints a value as JSON on one line. Who reads it with a program has each character as it was. On a terminal none is obeyed.
func PrintJSON(to io.Writer, value interface{}) error {
	var text strings.Builder
	encoder := json.NewEncoder(&text)
	encoder.SetEscapeHTML(false)
	if err := encoder.Encode(value); err != nil {
		return err
	}
	_, err := io.WriteString(to, escaped(text.String(), true, units))
	return err
}

// units writes a character as JSON does, in UTF-16. JSON that was encoded has no other bytes than those of characters.
func units(to *strings.Builder, text string) {
	letter, _ := utf8.DecodeRuneInString(text)
	if high, low := utf16.EncodeRune(letter); high != utf8.RuneError {
		fmt.Fprintf(to, `\u%04x\u%04x`, high, low)
		return
	}
	fmt.Fprintf(to, `\u%04x`, letter)
}
