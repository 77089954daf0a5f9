package stignore

import (
	"errors"
	"fmt"
	"strings"

	"github.com/gobwas/glob"
	"golang.org/x/text/unicode/norm"
)

// Patterns say which names are kept out of a folder.
type Patterns struct {
	patterns []pattern
	takes    bool
}

// pattern is one of them.
type pattern struct {
	text      string
	match     glob.Glob
	linear    *linear
	stars     int // and braces
	isIgnored bool
	foldsCase bool

	isDeletable bool
}

// How many characters that stand for others a line may have, and all lines together. The package that compiles patterns takes the cube of a line's, and a
// part may come from anybody.
const (
	mostWild      = 64
	mostWildOfAll = 20000
	mostPattern   = 4096 // bytes: no path is longer
	mostLines     = 10000
)

// errTooWild says that patterns take too long.
var errTooWild = errors.New("it takes too long")

// checkWild says whether lines take too long to be compiled or compared.
func checkWild(lines []string) error {
	if len(lines) > mostLines {
		return fmt.Errorf("it has over %d lines: %w", mostLines, errTooWild)
	}
	all := 0
	for _, line := range lines {
		wild := 0
		for _, sign := range "*?[{," {
			wild += strings.Count(line, string(sign))
		}
		if all += wild; wild > mostWild || all > mostWildOfAll || len(line) > mostPattern {
			return fmt.Errorf("it has over %d bytes or %d of the characters '*?[{,' on a line, or over %d of these: %w", mostPattern, mostWild, mostWildOfAll, errTooWild)
		}
	}
	return nil
}

// Parse reads the lines of a .stignore whose includes are in their places. On some systems patterns don't heed case.
func Parse(lines []string, foldCase bool) (*Patterns, error) {
	patterns := &Patterns{}
	if err := checkWild(lines); err != nil {
		return nil, err
	}
	for _, line := range lines {
		if strings.HasPrefix(line, "#") {
			return nil, fmt.Errorf("it has the line %q, which this program doesn't know", line)
		}
		written := []string{line}
		switch {
		case strings.HasSuffix(line, "/**"):
		case strings.HasSuffix(line, "/"):
			written = []string{line + "**"}
		default:
			written = append(written, line+"/**")
		}
		for _, text := range written {
			if err := patterns.add(text, foldCase); err != nil {
				return nil, fmt.Errorf("it has the pattern %q, which is none: %w", line, err)
			}
		}
	}
	patterns.takes = patterns.takesIgnored()
	return patterns, nil
}

// add adds a pattern: as it stands, and where it isn't bound to the folder's own directory, for each directory below it.
func (p *Patterns) add(line string, foldCase bool) error {
	added := pattern{isIgnored: true, foldsCase: foldCase}
	text := added.takePrefixes(norm.NFC.String(line))
	if text == "" {
		return fmt.Errorf("it is empty")
	}
	if added.foldsCase {
		text = strings.ToLower(text)
	}
	texts := []string{text, "**/" + text}
	switch {
	case strings.HasPrefix(text, "/"):
		texts = []string{text}
	case strings.HasPrefix(text, "**/"):
		texts = []string{text, text[len("**/"):]}
	}
	for _, next := range texts {
		pattern := added
		var err error
		pattern.text = next
		text := strings.TrimPrefix(next, "/")
		if pattern.match, err = glob.Compile(text, '/'); err != nil {
			return err
		}
		pattern.linear = &linear{pattern: text}
		pattern.stars = strings.Count(strings.ReplaceAll(text, "**", "*"), "*") + strings.Count(text, "{")
		p.patterns = append(p.patterns, pattern)
	}
	return nil
}

// takePrefixes takes what stands before a pattern, each once and in any order.
func (p *pattern) takePrefixes(line string) string {
	seen := map[string]bool{}
	for {
		prefix := ""
		for _, word := range []string{"!", "(?i)", "(?d)"} {
			if strings.HasPrefix(line, word) && !seen[word] {
				prefix = word
			}
		}
		switch seen[prefix] = true; prefix {
		case "":
			return line
		case "!":
			p.isIgnored = false
		case "(?i)":
			p.foldsCase = true
		case "(?d)":
			p.isDeletable = true
		}
		line = line[len(prefix):]
	}
}

// IsIgnored says whether a name is kept out.
func (p *Patterns) IsIgnored(name string) bool {
	fitting := p.fitting(name)
	return fitting != nil && fitting.isIgnored
}

// IsDeletable says whether a name is kept out, and goes with its directory.
func (p *Patterns) IsDeletable(name string) bool {
	fitting := p.fitting(name)
	return fitting != nil && fitting.isIgnored && fitting.isDeletable
}

// fitting gives the first pattern that fits a name, which decides; nothing where none does.
func (p *Patterns) fitting(name string) *pattern {
	lower := ""
	for place := range p.patterns {
		pattern := &p.patterns[place]
		text := name
		if pattern.foldsCase {
			if lower == "" {
				lower = strings.ToLower(name)
			}
			text = lower
		}
		if pattern.fits(text) {
			return pattern
		}
	}
	return nil
}

// mostSteps is how many ways to place its stars in a name Syncthing's package may try.
const mostSteps = 1e7

// steps says how many these are.
func (p *pattern) steps(name string) float64 {
	count := 1.0
	for star := 1; star <= p.stars && count <= mostSteps; star++ {
		count *= float64(len(name)+star) / float64(star)
	}
	return count
}

// fits says whether a pattern fits a name, as Syncthing's package has it. It panics at a few patterns with names of several bytes a letter, and Syncthing with
// it: nobody knows what they say of such a name then, so it counts as the folder's. Where it would take very long, at names that no person gives, what the
// pattern means counts.
func (p *pattern) fits(name string) (is bool) {
	if p.steps(name) > mostSteps {
		return p.linear.fits(name)
	}
	defer func() { recover() }()
	return p.match.Match(name)
}

// TakesIgnored says whether a directory that is kept out may be the folder's all the same, since a pattern takes in something below it.
func (p *Patterns) TakesIgnored() bool { return p.takes }

// takesIgnored says that. A pattern with '/**' that was added to one without it decides nothing.
func (p *Patterns) takesIgnored() bool {
	before := ""
	for place := range p.patterns {
		pattern := &p.patterns[place]
		if before != "" && pattern.text == before+"/**" {
			continue
		}
		if !pattern.allowsSkipping() {
			return true
		}
		before = pattern.text
	}
	return false
}

// allowsSkipping says whether nothing below a directory that is kept out is taken in by this pattern.
func (p *pattern) allowsSkipping() bool {
	if p.isIgnored {
		return true
	}
	if p.text[0] != '/' || strings.Contains(p.text[1:], "/") {
		return false
	}
	return !strings.Contains(strings.TrimSuffix(p.text, "**"), "**")
}

// FoldsCase says whether patterns don't heed case on a system, as Go names it.
func FoldsCase(system string) bool { return system == "windows" || system == "darwin" }
