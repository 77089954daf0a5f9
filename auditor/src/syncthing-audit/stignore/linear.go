package stignore

import (
	"errors"
	"regexp"
	"strings"
	"sync"
	"unicode/utf8"
)

// linear says which names a pattern fits, in a time that grows no faster than the pattern times the name: Syncthing's package tries each place for each star,
// so a few stars and a long name keep it for years.
type linear struct {
	pattern string
	once    sync.Once
	means   *regexp.Regexp // nothing of a pattern that is none
}

// fits says whether the pattern fits a name. Of one whose braces aren't closed, which Syncthing's package takes, nobody knows it.
func (l *linear) fits(name string) bool {
	l.once.Do(func() {
		if text, _, err := expression(l.pattern, false); err == nil {
			l.means, _ = regexp.Compile(`(?s)\A(?:` + text + `)\z`)
		}
	})
	return l.means != nil && l.means.MatchString(name)
}

// expression translates a pattern, or the rest of one up to the end of the braces it stands in, and gives what comes behind that.
func expression(pattern string, isInBraces bool) (text, rest string, err error) {
	for pattern != "" {
		letter, length := utf8.DecodeRuneInString(pattern)
		next := pattern[length:]
		switch {
		case letter == '*' && strings.HasPrefix(next, "*"):
			text, next = text+`.*`, next[1:]
		case letter == '*':
			text += `[^/]*`
		case letter == '?':
			text += `[^/]`
		case letter == '\\' && next != "":
			text, next = text+regexp.QuoteMeta(next[:1]), next[1:] // what is left of a longer letter comes as it is
		case letter == '\\':
			return "", "", errors.New("it ends with a backslash")
		case letter == '[':
			class, behind, err := classOf(next)
			if err != nil {
				return "", "", err
			}
			text, next = text+class, behind
		case letter == '{':
			inner, behind, err := expression(next, true)
			if err != nil {
				return "", "", err
			}
			text, next = text+"(?:"+inner+")", behind
		case letter == '}' && isInBraces:
			return text, next, nil
		case letter == ',' && isInBraces:
			text += "|"
		default:
			text += regexp.QuoteMeta(pattern[:length])
		}
		pattern = next
	}
	if isInBraces {
		return "", "", errors.New("a brace isn't closed")
	}
	return text, "", nil
}

// classOf translates a class behind its bracket: a range of letters, or a list.
func classOf(pattern string) (class, rest string, err error) {
	inside, rest, is := strings.Cut(pattern, "]")
	if !is {
		return "", "", errors.New("a bracket isn't closed")
	}
	not := ""
	if strings.HasPrefix(inside, "!") {
		not, inside = "^", inside[1:]
	}
	if letters := []rune(inside); len(letters) == 3 && letters[1] == '-' {
		return "[" + not + quoted(letters[0]) + "-" + quoted(letters[2]) + "]", rest, nil
	}
	letters := ""
	for _, letter := range inside {
		letters += quoted(letter)
	}
	return "[" + not + letters + "]", rest, nil
}

// quoted gives a letter as it stands in a class.
func quoted(letter rune) string {
	if letter < utf8.RuneSelf && strings.ContainsRune(`\]^-[`, letter) {
		return `\` + string(letter)
	}
	return string(letter)
}
