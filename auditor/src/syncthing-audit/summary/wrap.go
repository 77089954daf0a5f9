package summary

import (
	"regexp"

	"syncthing-audit/print"
)

// Words for a person, as all that is printed has them.
var size, counted, thousands = print.Size, print.Counted, print.Thousands

// quoted is a word of a shell with a part in quotes, as the package shell gives it, or words of a page such as 'Ignore Permissions'.
var quoted = regexp.MustCompile(`^(?:\\['\\]|'[^']+')+`)

// wordsOfText gives the words between which a text may go on on another line. What is quoted is one of them, whatever spaces it has: who copies it from a
// terminal gets it whole. An apostrophe within a word begins nothing.
func wordsOfText(text string) []string {
	words, begun, isBegin := []string{}, 0, true
	for at := 0; at < len(text); at++ {
		if length := len(quoted.FindString(text[at:])); isBegin && length > 0 {
			at, isBegin = at+length-1, false
			continue
		}
		isBegin = text[at] == ' ' || text[at] == '('
		if text[at] == ' ' {
			words, begun = append(words, text[begun:at]), at+1
		}
	}
	return append(words, text[begun:])
}

// widthOfText is how long a line of running text grows, about.
const widthOfText = 100

// running prints running text behind a word, over as many lines as it takes.
func (p *printer) running(line, text string) {
	for _, word := range wordsOfText(text) {
		if len(line)+1+len(word) > widthOfText {
			p.Line("%s", line)
			line = "        "
		}
		line += " " + word
	}
	p.Line("%s", line)
}
