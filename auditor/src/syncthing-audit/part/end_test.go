package part

import (
	"strings"
	"testing"
)

// The end of a folder says how many temporary names there are, or nothing, as of an older program. No count is below 0.
func TestTemporaryNamesAtAnEnd(t *testing.T) {
	for told, counts := range map[string][]*Count{"": {nil, {}, {Names: 2, Bytes: 9}}, "a count of names below 0": {{Names: -1}, {Names: 1, Bytes: -1}}} {
		for _, one := range counts {
			read := rules{head: &Head{Folders: []Folder{{ID: "docs"}}}}
			if err := read.take(Line{Begin: &Begin{Folder: "docs"}}); err != nil {
				t.Fatal(err)
			}
			for _, end := range []End{{Temporary: one}, {Linked: one}} {
				again := read
				end.Folder, end.Last = "docs", true
				err := again.take(Line{End: &end})
				if (err == nil) != (told == "") || err != nil && !strings.Contains(err.Error(), told) {
					t.Errorf("%+v: %v", one, err)
				}
			}
		}
	}
}
