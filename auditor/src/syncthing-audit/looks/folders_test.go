package looks

import (
	"errors"
	"io"
	"strings"
	"testing"

	"golang.org/x/exp/slices"
	"syncthing-audit/part"
)

// addFolder adds a folder with one name behind the one that is there.
func (l *lines) addFolder(id string) {
	folder := l.head.Folders[0]
	folder.ID = id
	l.head.Folders = append(l.head.Folders, folder)
	l.rest[len(l.rest)-1].End.Last = false
	l.rest = append(l.rest, part.Line{Begin: &part.Begin{Folder: id}}, part.Line{Name: aFile(unchanged)}, part.Line{End: &part.End{Folder: id, Names: 1, Max: 9, Last: true}})
}

// A folder whose looks don't go together is out by itself, with why, and the others are joined.
func TestOneFolderWhoseLooksDoNotGoTogether(t *testing.T) {
	for why, one := range map[string]struct {
		change func(first, second *part.Head)
		told   string
	}{
		"at the first look alone":  {func(_, second *part.Head) { second.Folders = second.Folders[1:] }, "other folders"},
		"at the second look alone": {func(first, _ *part.Head) { first.Folders = first.Folders[1:] }, "other folders"},
		"away at the second look": {func(_, second *part.Head) {
			second.Folders, second.Others = second.Folders[1:], []part.Other{{ID: "docs", Away: "its disk is gone", IsStopped: true}}
		}, "its disk is gone"},
		"a new index":        {func(_, second *part.Head) { second.Folders[0].IndexID++ }, "made anew"},
		"an older index":     {func(_, second *part.Head) { second.Folders[0].Max-- }, "went back from change 9 to 8"},
		"another directory":  {func(_, second *part.Head) { second.Folders[0].Directory = "y" }, "configuration changed"},
		"another kind":       {func(_, second *part.Head) { second.Folders[0].Kind = "send-only" }, "configuration changed"},
		"shared with others": {func(_, second *part.Head) { second.Folders[0].Sharing = nil }, "configuration changed"},
		"other permissions":  {func(_, second *part.Head) { second.Folders[0].IgnoresPermissions = true }, "configuration changed"},
		"other attributes":   {func(_, second *part.Head) { second.Folders[0].ScansAttributes = true }, "configuration changed"},
		"another window":     {func(_, second *part.Head) { second.Folders[0].TimeWindow = 2 }, "configuration changed"},
		"nothing":            {func(_, _ *part.Head) {}, ""},
	} {
		first, second := firstLook(aFile(unchanged)), secondLook(aFile(unchanged))
		first.addFolder("pics")
		second.addFolder("pics")
		one.change(&first.head, &second.head)
		for _, look := range []*lines{first, second} { // a part has the lines of its head's folders alone
			if look.head.Folders[0].ID == "pics" {
				look.rest = look.rest[3:]
			}
		}
		stream, err := Join(first, second)
		if err != nil {
			t.Fatal(why, err)
		}
		folders, names := []string{}, 0
		for line, err := stream.Next(); err != io.EOF; line, err = stream.Next() {
			if err != nil {
				t.Fatal(why, err)
			}
			if line.Begin != nil {
				folders = append(folders, line.Begin.Folder)
			}
			if line.Name != nil && len(line.Name.Moved) == 0 {
				names++
			}
		}
		others, expected := stream.Head().Others, []string{"docs", "pics"}
		if one.told != "" {
			expected = expected[1:]
		}
		isTold := len(others) == 1 && others[0].ID == "docs" && slices.Equal(others[0].Devices, []string{there}) && strings.Contains(others[0].Apart+others[0].Away, one.told)
		if !slices.Equal(folders, expected) || names != len(expected) || isTold != (one.told != "") || len(stream.Head().Folders) != len(expected) {
			t.Errorf("%s: %v, %d names, %v", why, folders, names, others)
		}
	}
}

// Whether a device tells which folders it has beside those that are joined stays as it was; what is lacking stands in its place among them.
func TestOthersOfJoinedLooks(t *testing.T) {
	for why, one := range map[string]struct {
		others   []part.Other
		isApart  bool
		isLater  bool // only the second look has the folder
		expected []string
	}{
		"none":                  {[]part.Other{}, false, false, []string{}},
		"not told":              {nil, false, false, nil},
		"some":                  {[]part.Other{{ID: "a"}, {ID: "z"}}, false, false, []string{"a", "z"}},
		"one of them out":       {[]part.Other{{ID: "a"}, {ID: "z"}}, true, false, []string{"a", "docs", "z"}},
		"one of them out later": {[]part.Other{{ID: "a"}, {ID: "docs"}}, false, true, []string{"a", "docs"}},
	} {
		first, second := firstLook(aFile(unchanged)), secondLook(aFile(unchanged))
		first.addFolder("pics")
		second.addFolder("pics")
		first.head.Others, second.head.Others = one.others, one.others
		if one.isApart {
			second.head.Folders[0].IndexID++
		}
		if one.isLater {
			first.head.Folders = first.head.Folders[1:]
		}
		before := text(first.head) + text(second.head)
		stream, err := Join(first, second)
		if err != nil || text(first.head)+text(second.head) != before {
			t.Fatal(why, err, first.head, second.head)
		}
		var told []string
		for _, other := range stream.Head().Others {
			told = append(told, other.ID)
		}
		isApart := slices.IndexFunc(stream.Head().Others, func(other part.Other) bool { return other.ID == "docs" && other.Apart != "" }) >= 0
		if !slices.Equal(told, one.expected) || isApart != (one.isApart || one.isLater) || (stream.Head().Others == nil) != (one.expected == nil) {
			t.Errorf("%s: %v", why, stream.Head().Others)
		}
	}
}

// cutOff is a part that ends in the middle.
type cutOff struct{ *lines }

var errCutOff = errors.New("it is cut off")

func (c cutOff) Next() (part.Line, error) {
	line, err := c.lines.Next()
	if err == io.EOF {
		err = errCutOff
	}
	return line, err
}

// A look that is cut off in a folder that isn't joined is told as that.
func TestALookThatIsCutOffInAFolderThatIsOut(t *testing.T) {
	first, second := firstLook(aFile(unchanged)), secondLook(aFile(unchanged))
	second.head.Folders[0].IndexID++
	first.rest = first.rest[:2]
	stream, err := Join(cutOff{first}, second)
	if err != nil {
		t.Fatal(err)
	}
	if line, err := stream.Next(); !errors.Is(err, errCutOff) {
		t.Errorf("%+v, %v", line, err)
	}
}
