package gather

import (
	"errors"
	"io"
	"math/rand"
	"reflect"
	"testing"
	"time"

	"syncthing-audit/choice"
	"syncthing-audit/disk"
	"syncthing-audit/part"
)

// renamed is a folder of another id.
type renamed struct {
	*madeUp
	id string
}

func (r renamed) Folder() part.Folder {
	made := r.madeUp.Folder()
	made.ID, made.Path = r.id, r.madeUp.path
	return made
}

// linesOf gives all lines of a device, and the error behind them.
func linesOf(next func() (part.Line, error)) ([]part.Line, error) {
	var all []part.Line
	for {
		line, err := next()
		if err != nil {
			return all, err
		}
		all = append(all, line)
	}
}

// All that is known of a device stands in the head of its part: of each folder how Syncthing was seen with it, and paths where they are asked for.
func TestTheHeadOfAPart(t *testing.T) {
	folder := renamed{&madeUp{directory: directory{t.TempDir()}}, "docs"}
	of := &Device{ID: "DEVICE", Name: "laptop", Runs: "v1.29.5", Index: &part.Index{}, Newer: &part.Newer{Path: "/srv/index"}, ToRepair: true, Folders: []Folder{folder},
		Names: choice.Names{Prefix: "a"}, Look: &part.Look{ID: "look"}, Others: []part.Other{{ID: "pics"}}, Rest: map[string]*part.Rest{"docs": {State: "idle"}, "pics": {State: "paused"}}}
	for _, hasPaths := range []bool{false, true} {
		of.Paths = hasPaths
		before := time.Now().UTC().Truncate(time.Second)
		head := of.Head()
		about := folder.Folder()
		about.Rest = of.Rest["docs"]
		expected := &part.Head{Version: part.VersionOfLooks, Device: "DEVICE", Name: "laptop", Runs: "v1.29.5", Made: head.Made, Names: of.Names, Folders: []part.Folder{about}, Look: of.Look, Index: of.Index,
			Newer: &part.Newer{}, ToRepair: true, Others: of.Others}
		if hasPaths {
			expected.Newer = of.Newer
		} else {
			expected.Folders[0].Path = ""
		}
		if !reflect.DeepEqual(head, expected) || head.Made.Before(before) || head.Made.Nanosecond() != 0 || of.Newer.Path == "" {
			t.Errorf("%+v, not %+v", head, expected)
		}
	}
	if others := (&Device{}).Head().Others; others == nil || len(others) > 0 {
		t.Errorf("a device without other folders doesn't say so: %v", others)
	}
}

// A stream gives the lines of a reading and its end or error, of the folders that were chosen, and may be closed at each line.
func TestAStreamGivesTheLinesOfAReading(t *testing.T) {
	for _, broken := range []string{"", "0", "check"} {
		first, second := makeUp(t, rand.New(rand.NewSource(3)), 4), makeUp(t, rand.New(rand.NewSource(4)), 4)
		first.broken, first.after = broken, 2
		folders := []Folder{renamed{first, "a"}, renamed{second, "b"}}
		pool := disk.NewPool(1)
		defer pool.Close()
		for _, chosen := range []string{"a", "b", "ab"} {
			isChosen := func(id string) bool { return chosen == "ab" || chosen == id }
			var wanted []Folder
			for place, id := range []string{"a", "b"} {
				if isChosen(id) {
					wanted = append(wanted, folders[place])
				}
			}
			var expected []part.Line
			plain := &Device{Folders: wanted, Pool: pool}
			failed := plain.Run(plain.Head(), func(line part.Line) error { expected = append(expected, line); return nil })
			if (failed != nil) != (broken != "" && isChosen("a")) {
				t.Fatal(failed)
			}
			if failed == nil {
				failed = io.EOF
			}
			streamed := func() *Stream {
				made := (&Device{Folders: folders, Pool: pool}).Stream()
				made.Choose(isChosen)
				return made
			}
			stream := streamed()
			lines, err := linesOf(stream.Next)
			if (err == io.EOF) != (failed == io.EOF) || errors.Is(err, errMadeUp) != errors.Is(failed, errMadeUp) || !reflect.DeepEqual(lines, expected) || len(stream.Head().Folders) != len(chosen) {
				t.Errorf("%q, %q: %d lines, not %d: %v, not %v", broken, chosen, len(lines), len(expected), err, failed)
			}
			if _, again := stream.Next(); again != err {
				t.Errorf("%q, %q: %v, and then %v", broken, chosen, err, again)
			}
			for taken := 0; taken < len(expected); taken++ {
				closed := streamed()
				for line := 0; line < taken; line++ {
					if _, err := closed.Next(); err != nil {
						t.Fatal(err)
					}
				}
				closed.Close()
				closed.Close()
			}
		}
	}
}

// A second look reads no bytes of files, and tells all else of them.
func TestASecondLookReadsNoBytes(t *testing.T) {
	folder := makeUp(t, rand.New(rand.NewSource(3)), 4)
	pool := disk.NewPool(1)
	defer pool.Close()
	files := map[bool]int{}
	for _, look := range []*part.Look{{ID: "first"}, {After: map[string]string{"DEVICE": "first"}}} {
		reading := &Device{Folders: []Folder{folder}, Pool: pool, Look: look}
		err := reading.Run(reading.Head(), func(line part.Line) error {
			if line.Name != nil && line.Name.Disk != nil && line.Name.Disk.Contents != nil {
				files[look.IsFirst()]++
			}
			return nil
		})
		if err != nil {
			t.Fatal(err)
		}
	}
	if files[true] == 0 || files[false] != 0 {
		t.Errorf("files with contents by looks: %v", files)
	}
}
