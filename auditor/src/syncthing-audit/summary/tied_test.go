package summary

import (
	"strings"
	"testing"
	"time"

	"syncthing-audit/finding"
	"syncthing-audit/part"
)

// Two devices with other contents under one version are told as that, and not as behind: neither takes anything from the other. What comes of it the outlook says.
func TestOtherContentsUnderOneVersion(t *testing.T) {
	symlinkTo := func(target string) *part.Name {
		return with(file(2, 1), func(at *part.Name) {
			at.Own.Type, at.Own.Target, at.Own.Content = 4, target, nil
			at.Disk = &part.Node{Type: 4, Target: target}
		})
	}
	for why, row := range map[string][]*part.Name{
		"deleted":        {file(2, 1), with(with(file(2, 1), again), absent)},
		"another file":   {file(2, 1), file(2, 2)},
		"another target": {symlinkTo("a"), symlinkTo("b")},
	} {
		for _, isKnown := range []bool{true, false} {
			answer := answerOf(2, func(folder *finding.Folder) {
				fails(folder, "a", row, "RecordDiffers 2", "StoreDiffers 2", "ViewAhead 1")
			})
			has := "it isn't known what happens"
			if isKnown {
				foretellAll(answer)
				has = "put what is wanted on each of them"
			}
			text := printed(answer)
			if !strings.Contains(text, has) || !strings.Contains(text, "server: has something else under the same version") || strings.Contains(text, "behind:") || strings.Contains(text, "modified") {
				t.Errorf("%s: %s", why, text)
			}
		}
	}
}

// Where the device's version is older, it is behind.
func TestAnOlderVersionIsNotTied(t *testing.T) {
	text := printed(answerOf(2, func(folder *finding.Folder) {
		fails(folder, "a", []*part.Name{file(2, 1), file(1, 2)}, "RecordDiffers 2", "StoreDiffers 2")
	}))
	if !strings.Contains(text, "behind: hasn't taken what is newest") || strings.Contains(text, "same version") {
		t.Error(text)
	}
}

// Many such names aren't told together with those of a device that is behind.
func TestManyUnderOneVersion(t *testing.T) {
	text := printed(answerOf(2, func(folder *finding.Folder) {
		for _, name := range strings.Split("a b c d e f g h", " ") {
			fails(folder, name, []*part.Name{file(2, 1), file(2, 2)}, "RecordDiffers 2", "StoreDiffers 2")
		}
		for _, name := range strings.Split("i j k l m n", " ") {
			fails(folder, name, []*part.Name{file(2, 1), file(1, 2)}, "RecordDiffers 2", "StoreDiffers 2")
		}
	}))
	if !strings.Contains(text, "8 names in docs") || !strings.Contains(text, "6 names in docs") {
		t.Error(text)
	}
}

// printed gives what a person reads, in one line.
func printed(answer *finding.Answer) string {
	var text strings.Builder
	Of(answer).Print(&text, time.UTC, time.Time{})
	return strings.Join(strings.Fields(text.String()), " ")
}
