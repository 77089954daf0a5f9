package stignore

import (
	"strings"
	"testing"
	"time"

	"syncthing-audit/hang"
)

// Whatever lines a half of a part has, they are read or refused, and say the same of a name each time, in a while.
func FuzzPatterns(f *testing.F) {
	for _, lines := range []string{"*.tmp", "!a/b\n/a", "(?i)(?d)A?{b,c}[d-f]\\*", "**/a/**\n#x", "{a,{b,*}}", "[!a]"} {
		f.Add(lines, "a/bc", false)
	}
	f.Add("{ä,*}?ö", "äöü/é", true)
	f.Fuzz(func(t *testing.T, lines, name string, foldCase bool) {
		defer hang.Watch()()
		began := time.Now()
		patterns, err := Parse(strings.Split(lines, "\n"), foldCase)
		if err != nil {
			return
		}
		if is := patterns.IsIgnored(name); is != patterns.IsIgnored(name) {
			t.Error("the answer isn't always the same")
		}
		patterns.TakesIgnored()
		if took := time.Since(began); took > 10*time.Second {
			t.Errorf("it took %v", took)
		}
	})
}
