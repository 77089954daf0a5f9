package stignore

import (
	"errors"
	"math"
	"strings"
	"testing"
	"time"
)

// Lines that a part may have from anybody are read and compared in a while, or refused.
func TestLinesThatTakeLong(t *testing.T) {
	name := strings.Repeat("a", 4000)
	for _, piece := range []string{"{a,b}", "{a,", "{*a,", "{?*,*", "*a", "*?", "**a", "?", "a,", "[a-z]*", "{**a,?*b,[a-z]*}", "{", "x", "a[", "{{a,b},{c,d}}"} {
		for _, length := range []int{60, 600, 60000, 600000} {
			wild := strings.Repeat(piece, length/len(piece))
			closed := strings.Repeat("}", strings.Count(wild, "{")-strings.Count(wild, "}"))
			for _, line := range []string{wild + "b", wild + "a" + closed, "{" + wild + "b}"} {
				ended := make(chan error, 1)
				go func() {
					patterns, err := Parse([]string{line}, false)
					if err == nil {
						patterns.IsIgnored(name)
					}
					ended <- err
				}()
				select {
				case err := <-ended:
					if length > 70000 && !errors.Is(err, errTooWild) {
						t.Errorf("%d of %q: %.200v", length, piece, err)
					}
				case <-time.After(20 * time.Second):
					t.Fatalf("%d of %q take too long", length, piece)
				}
			}
		}
	}
	lines := []string{}
	for len(lines) < 9000 {
		lines = append(lines, "a*?b")
	}
	if _, err := Parse(lines, false); err != nil {
		t.Error(err)
	}
	for at := range lines {
		lines[at] = "a*?b?"
	}
	if _, err := Parse(lines, false); !errors.Is(err, errTooWild) {
		t.Error(err)
	}
	plain := make([]string, mostLines+1)
	for at := range plain {
		plain[at] = "a"
	}
	if _, err := Parse(plain, false); !errors.Is(err, errTooWild) {
		t.Error(err)
	}
	if _, err := Parse(plain[1:], false); err != nil {
		t.Error(err)
	}
}

// As many ways are counted to place stars as there are: what stands between them takes that many places of a name or fewer, in order.
func TestWaysToPlaceStars(t *testing.T) {
	ways := func(stars, length int) float64 { return 0 }
	ways = func(stars, length int) float64 {
		if stars == 0 {
			return 1
		}
		sum := 0.0
		for first := 0; first <= length; first++ {
			sum += ways(stars-1, first)
		}
		return sum
	}
	for stars := 0; stars < 5; stars++ {
		for length := 0; length < 9; length++ {
			if found, due := (&pattern{stars: stars}).steps(strings.Repeat("x", length)), ways(stars, length); math.Abs(found-due) > 1e-6*due {
				t.Errorf("%d stars in %d letters: %g, not %g", stars, length, found, due)
			}
		}
	}
	if many := (&pattern{stars: 1 << 40}).steps("x"); many < mostSteps || many > 2*mostSteps {
		t.Errorf("%g", many)
	}
}

// Lines are as wild as they may be, and no wilder: each by itself, and all together. It is told what is too much.
func TestHowWildLinesMayBe(t *testing.T) {
	all := strings.Split(strings.Repeat(strings.Repeat("?", mostWild/2)+"\n", mostWildOfAll/(mostWild/2)), "\n")
	for why, row := range map[string]struct {
		lines     []string
		isTooWild bool
	}{
		"none":                         {nil, false},
		"as many as a line may have":   {[]string{"ab" + strings.Repeat("*?[{,", mostWild/5) + "***?"[:mostWild%5]}, false},
		"one more":                     {[]string{"ab" + strings.Repeat("*?[{,", mostWild/5) + "***?*"[:mostWild%5+1]}, true},
		"as many as all may have":      {all, false},
		"one more of all":              {append(all[:len(all):len(all)], "?"), true},
		"as long as a line may be":     {[]string{strings.Repeat("]", mostPattern)}, false},
		"a byte more":                  {[]string{strings.Repeat("]", mostPattern+1)}, true},
		"as long as one may be, twice": {[]string{strings.Repeat("}", mostPattern), strings.Repeat("a", mostPattern)}, false},
	} {
		err := checkWild(row.lines)
		if errors.Is(err, errTooWild) != row.isTooWild {
			t.Errorf("%s: %v", why, err)
		}
		if err != nil && !strings.HasPrefix(err.Error(), "it has over 4096 bytes or 64 of the characters '*?[{,' on a line, or over 20000 of these: ") {
			t.Errorf("%s: %v", why, err)
		}
	}
}

// Where a pattern is compared in the way that takes no long time, it fits what it means.
func TestWhatAPatternMeans(t *testing.T) {
	many := strings.Repeat("a", 4000)
	for _, row := range []struct {
		pattern, name string
		is            bool
	}{
		{"*a*a*a*a*b", many + "b", true}, {"*a*a*a*a*b", many, false}, {"*a*a*b", many + "/b", false}, {"**a**a**b", many + "/b", true},
		{"{*a*,x}*a*b", "x" + many + "b", true}, {"{*x*,y}*a*b", many + "b", false}, {"*[b-d]*a*?e", many + "cae", false}, {"*[b-d]*a*?e", many + "caae", true},
		{"*[!b-d]*c", "bbbbc", false}, {"*[!b-d]*c", "bbabc", true}, {"[^a]x", "^x", true}, {"[^a]x", "bx", false}, {"[a\\]x", "\\x", true}, {"[a-]x", "-x", true},
		{"\\*x", "*x", true}, {"\\*x", "ax", false}, {"a.c", "abc", false}, {"a,b", "a,b", true}, {"{a,{b,c}d}", "cd", true}, {"{a,{b,c}d}", "c", false}, {"?", "é", true},
		{"?", "/", false}, {"*", "a\nb", true}, {"{a", "a", false}, {"[a", "a", false}, {"a\\", "a", false}, {"é*", "éa", true}, {"a}", "a}", true},
		{"\\éx", "éx", true}, {"\\éx", "\\éx", false}, {"x{[a", "x", false}, {"x{a{b", "x", false}, {"x{\\", "x", false}, {"", "", true}, {"[", "", false},
	} {
		if is := (&linear{pattern: row.pattern}).fits(row.name); is != row.is {
			t.Errorf("%q fits %.40q: %v", row.pattern, row.name, is)
		}
	}
	patterns, err := Parse([]string{"*a*a*a*a*b"}, false)
	if err != nil || !patterns.IsIgnored(many+"b") || patterns.IsIgnored(many+"c") || !patterns.IsIgnored("x/"+many+"b/y") {
		t.Error(err)
	}
}
