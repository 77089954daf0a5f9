package summary

import (
	"strings"
	"testing"

	"syncthing-audit/finding"
	"syncthing-audit/outlook"
	"syncthing-audit/part"
)

// What happens stands between the folders and their entries. Of a folder of which nothing is foretold only the entries say so.
func TestOutlook(t *testing.T) {
	for _, has := range []bool{true, false} {
		answer := answerOf(2, func(folder *finding.Folder) {
			fails(folder, "a", []*part.Name{file(1, 1), with(file(1, 1), rotten)}, "StoreDiffers 2")
			if has {
				folder.Outlook = &outlook.Outlook{Names: 1, Stays: 1}
			}
		})
		text := printed(answer)
		foretold, entry := strings.Index(text, " if nobody does anything in docs (Documents), and"), strings.Index(text, " a (in docs")
		if (foretold > 0) != has || foretold > entry || !strings.Contains(text, "isn't known what happens: ") {
			t.Errorf("%v: %s", has, text)
		}
	}
}
