package gather

import (
	"os"
	"path/filepath"
	"reflect"
	"strings"
	"testing"

	"github.com/syncthing/syncthing/lib/ignore"
	"syncthing-audit/choice"
	"syncthing-audit/device"
	"syncthing-audit/disk"
	"syncthing-audit/part"
)

// indexed is a folder whose index has a record of a name that .stignore ignores now.
type indexed struct {
	directory
	name string
}

func (i indexed) Own(_ choice.Names, take func(device.Entry) bool) error {
	take(device.Entry{Name: i.name, Record: &part.Record{Sequence: 1, ModifiedBy: 1}})
	return nil
}

// What only a disk has, and .stignore ignores, has a hash in place of its name, with its size alone. What an index has is told by its name.
func TestIgnoredNamesAreHidden(t *testing.T) {
	room := aDirectory(t)
	if err := os.WriteFile(filepath.Join(room, "known.log"), []byte("known"), 0o600); err != nil {
		t.Fatal(err)
	}
	pool := disk.NewPool(1)
	defer pool.Close()
	read := &Device{Folders: []Folder{indexed{directory{room}, "known.log"}}, Pool: pool}
	names := map[part.Bytes]*part.Name{}
	err := read.Run(read.Head(), func(line part.Line) error {
		if line.Name != nil {
			names[line.Name.Name] = line.Name
		}
		if line.End != nil && line.End.Holding != nil {
			t.Errorf("the folder's own directory is told: %+v", line.End.Holding)
		}
		return nil
	})
	hidden := names[part.HiddenName("docs", "a.log").Bytes()]
	if err != nil || len(names) != 5 || names["a.log"] != nil || hidden == nil {
		t.Fatalf("%v, %v", names, err)
	}
	if !reflect.DeepEqual(hidden.Disk, &part.Node{Size: 5}) || len(hidden.Out) != 1 || hidden.Out[0].Bytes != 5 {
		t.Errorf("%+v, %+v", hidden.Disk, hidden.Out)
	}
	if known := names["known.log"]; known == nil || !known.IsIgnored() || known.Own == nil {
		t.Errorf("%+v", known)
	}
}

// formerly is a folder whose index has names as ignored, with patterns.
type formerly struct {
	patterned
	names []string
}

func (f formerly) Own(_ choice.Names, take func(device.Entry) bool) error {
	for _, name := range f.names {
		take(device.Entry{Name: name, Out: &part.LeftOut{Kind: part.Ignored, Why: part.WhyIgnored}})
	}
	return nil
}

// Of a name that the index alone has as ignored, it isn't said that .stignore ignores it: the next scan takes it.
func TestWhatStignoreIgnoresNoMore(t *testing.T) {
	pool := disk.NewPool(1)
	defer pool.Close()
	for text, whys := range map[string][2]string{
		"":                {part.WhyIgnoredBefore, part.WhyIgnoredBefore},
		"*.log\n":         {part.WhyIgnored, part.WhyIgnored},
		"gone.log\n":      {part.WhyIgnoredBefore, part.WhyIgnored},
		"!a.log\n*.log\n": {part.WhyIgnoredBefore, part.WhyIgnored},
	} {
		read, told := &Device{Folders: []Folder{formerly{patterned{directory{aDirectory(t)}, text}, []string{"a.log", "gone.log"}}}, Pool: pool}, 0
		err := read.Run(read.Head(), func(line part.Line) error {
			if line.Name == nil || line.Name.Name != "a.log" && line.Name.Name != "gone.log" {
				return nil
			}
			why := whys[told]
			told++
			for _, out := range line.Name.Out {
				if out.Kind != part.Ignored || out.Why != why {
					t.Errorf("%q: %s: %+v, not %s", text, line.Name.Name, out, why)
				}
			}
			if len(line.Name.Out) == 0 || !line.Name.IsIgnored() {
				t.Errorf("%q: %s: %+v", text, line.Name.Name, line.Name)
			}
			return nil
		})
		if err != nil || told != 2 {
			t.Errorf("%q: %d, %v", text, told, err)
		}
	}
}

// patterned is a folder with patterns.
type patterned struct {
	directory
	text string
}

func (p patterned) Patterns() (*ignore.Matcher, error) {
	patterns := ignore.New(p.Disk())
	return patterns, patterns.Parse(strings.NewReader(p.text), ".stignore")
}

// A part says which directories hold what .stignore keeps out and Syncthing doesn't delete with them, but for directories that are ignored themselves.
func TestDirectoriesThatHoldWhatIsIgnored(t *testing.T) {
	room := t.TempDir()
	for _, name := range []string{"keeps/a.log", "keeps/sub/b.log", "drops/a.cache", "both/a.cache", "both/b.log", "free/a", "ignored/in/deep", "ignored/kept", "whole/ignored/a", "whole/x.cache/in/b", "odd/x.cache/keep", "top.cache"} {
		if err := os.MkdirAll(filepath.Join(room, filepath.Dir(name)), 0o700); err != nil {
			t.Fatal(err)
		}
		if err := os.WriteFile(filepath.Join(room, name), []byte("xyz"), 0o600); err != nil {
			t.Fatal(err)
		}
	}
	pool := disk.NewPool(1)
	defer pool.Close()
	read := &Device{Folders: []Folder{patterned{directory{room}, "keep\n(?d)*.cache\n!/ignored/kept\n*.log\n/ignored\n/whole/ignored\n"}}, Pool: pool}
	var holding *part.Holding
	var deletable *part.Deletable
	if err := read.Run(read.Head(), func(line part.Line) error {
		if line.End != nil {
			holding, deletable = line.End.Holding, line.End.Deletable
		}
		return nil
	}); err != nil {
		t.Fatal(err)
	}
	if due := (&part.Holding{Names: []part.Bytes{"both", "keeps", "keeps/sub", "odd", "whole"}}); !reflect.DeepEqual(holding, due) {
		t.Errorf("%+v", holding)
	}
	if due := (&part.Deletable{In: []part.DeletableIn{{Directory: "both", Count: part.Count{Names: 1, Bytes: 3}}, {Directory: "drops", Count: part.Count{Names: 1, Bytes: 3}},
		{Directory: "odd", Count: part.Count{Names: 1}}, {Directory: "whole", Count: part.Count{Names: 3, Bytes: 3}}}}); !reflect.DeepEqual(deletable, due) {
		t.Errorf("%+v", deletable)
	}
}
