package part

import (
	"reflect"
	"strings"
	"testing"
	"time"

	"github.com/syncthing/syncthing/lib/protocol"
)

// headOverWire gives a head of a part that is made over the wire.
func headOverWire() *Head {
	id := protocol.DeviceID{7: 1}.String()
	made := &Head{Device: id, Wire: NewWire(protocol.DeviceID{7: 2}.String(), false), Look: &Look{Home: "over the wire", ID: strings.Repeat("0f", 16),
		After: map[string]string{}, At: time.Unix(1, 0), Ended: time.Unix(2, 0)}}
	made.Look.After[id] = made.Look.ID
	made.Version = made.DueVersion()
	return made
}

// A part over the wire is of both looks, and says exactly what this program knows that isn't seen.
func TestHeadsOverTheWire(t *testing.T) {
	if err := checkHead(headOverWire()); err != nil {
		t.Fatal(err)
	}
	for told, change := range map[string]func(*Head){
		"by what it says": func(h *Head) { h.Version = VersionOfLooks },
		"observer":        func(h *Head) { h.Wire.Observer = h.Device },
		"of some files, and of": func(h *Head) {
			h.Wire.IsPartial, h.Wire.Unseen, h.Version = true, NewWire("", true).Unseen, VersionOfBudget
		},
		"version 4; by what it":  func(h *Head) { h.Wire.IsPartial = true },
		"isn't what this":        func(h *Head) { h.Wire.Unseen = h.Wire.Unseen[1:] },
		"what this program know": func(h *Head) { h.Wire.Unseen = append(h.Wire.Unseen, "zones") },
		"its looks are none":     func(h *Head) { h.Look = nil },
		"and its looks":          func(h *Head) { h.Look.After = nil },
		"over the wire, and":     func(h *Head) { h.Look.Ended = time.Time{} },
	} {
		head := headOverWire()
		change(head)
		if err := checkHead(head); err == nil || !strings.Contains(err.Error(), told) {
			t.Errorf("%s: %v", told, err)
		}
	}
}

// What Syncthing itself was asked of all folders isn't unseen; where it was asked of some, that is.
func TestHeadsOfAskedDevices(t *testing.T) {
	head := func(change func(*Head)) *Head {
		made := headOverWire()
		for _, id := range []string{"a", "b"} {
			made.Folders = append(made.Folders, Folder{ID: id, Kind: "receive-only", IndexID: 1, Options: &Options{}, Rest: &Rest{State: RestIdle, Wanted: &Wanted{}}})
		}
		made.Wire.WithoutAsked()
		change(made)
		return made
	}
	for count := 1; count <= 2; count++ {
		if err := checkHead(head(func(h *Head) { h.Folders = h.Folders[:count] })); err != nil {
			t.Errorf("%d folders: %v", count, err)
		}
	}
	if unseen := head(func(*Head) {}).Wire.Unseen; !reflect.DeepEqual(unseen, []string{"directories", "permissions", "symlinks", "times", "unscanned"}) {
		t.Error(unseen)
	}
	for told, change := range map[string]func(*Head){
		"isn't what this program": func(h *Head) { h.Folders[1].Rest, h.Folders[1].Options = nil, nil },
		"knows of: use":           func(h *Head) { h.Wire = NewWire(h.Wire.Observer, false) },
		"is told in part":         func(h *Head) { h.Folders[1].Options = nil },
		"still needs there":       func(h *Head) { h.Folders[1].Rest.Wanted.Names = -1 },
		"needs there is none":     func(h *Head) { h.Folders[0].Rest.Wanted.First = []NameError{{}} },
	} {
		if err := checkHead(head(change)); err == nil || !strings.Contains(err.Error(), told) {
			t.Errorf("%s: %v", told, err)
		}
	}
	of := head(func(h *Head) {
		h.Folders[1].Rest, h.Folders[1].Options, h.Wire = nil, nil, NewWire(h.Wire.Observer, false)
	})
	if err := checkHead(of); err != nil || of.IsAsked() {
		t.Errorf("%v, %v", err, of.IsAsked())
	}
}

// An observer sees no time, no permissions and no directory, and its part has no records of views.
func TestNamesOverTheWire(t *testing.T) {
	file := func(change func(*Name)) *Name {
		made := &Name{Name: "a", Disk: &Node{Size: 1}}
		change(made)
		return made
	}
	if err := checkWireName(file(func(*Name) {}), &Wire{}, false); err != nil {
		t.Error(err)
	}
	for _, change := range []func(*Name){func(n *Name) { n.Disk.ModifiedS = 1 }, func(n *Name) { n.Disk.Permissions = 1 }, func(n *Name) { n.Disk.Type = 1 },
		func(n *Name) { n.Views = []Seen{{}} }, func(n *Name) { n.Disk.Lost = "lost" }, func(n *Name) { n.Disk.Stamp = "1" }} {
		if checkWireName(file(change), &Wire{}, false) == nil {
			t.Errorf("%+v", file(change).Disk)
		}
	}
	if checkWireName(file(func(*Name) {}), &Wire{}, true) == nil {
		t.Error("a disk where records alone were asked for")
	}
	unread, seen := &Name{Name: "a", NotRead: true}, &Name{Name: "a", NotRead: true, Disk: &Node{Size: 1}}
	if err := checkWireName(unread, &Wire{IsPartial: true}, false); err != nil {
		t.Error(err)
	}
	for why, err := range map[string]error{"a disk of a file that wasn't read": checkWireName(seen, &Wire{IsPartial: true}, false),
		"a file that wasn't read in a part of all": checkWireName(unread, &Wire{}, false), "in one that no observer made": checkWireName(unread, nil, false)} {
		if err == nil {
			t.Error(why)
		}
	}
}

// Where the disks are in another part, an observer says which blocks of a file there differ: blocks of its record, and of no other part's.
func TestBlocksThatDifferInAnotherPart(t *testing.T) {
	name := func(change func(*Name)) *Name {
		made := &Name{Name: "a", Own: &Record{Content: &Content{Size: 3 << 17, BlockSize: 1 << 17}}, Differ: &Differ{Count: 2, Ranges: [][2]int64{{1, 2}}}}
		change(made)
		return made
	}
	half := &Wire{Half: "walk"}
	if err := checkWireName(name(func(*Name) {}), half, true); err != nil {
		t.Error(err)
	}
	for why, err := range map[string]error{
		"no walk":            checkWireName(name(func(*Name) {}), &Wire{}, true),
		"no observer":        checkWireName(name(func(*Name) {}), nil, false),
		"no record":          checkWireName(name(func(n *Name) { n.Own = nil }), half, true),
		"a deleted one":      checkWireName(name(func(n *Name) { n.Own.Content = nil }), half, true),
		"blocks behind it":   checkWireName(name(func(n *Name) { n.Differ.Ranges[0][1] = 3 }), half, true),
		"another count":      checkWireName(name(func(n *Name) { n.Differ.Count = 1 }), half, true),
		"a disk, too":        checkWireName(name(func(n *Name) { n.Disk = &Node{Size: 1} }), half, true),
		"what a view has":    checkWireName(name(func(n *Name) { n.Views = []Seen{{}} }), half, true),
		"a walk that has it": checkHalfName(&Name{Name: "a", Differ: &Differ{Count: 1, Ranges: [][2]int64{{0, 0}}}}, NewHalf("walk", "look", "linux", nil)),
	} {
		if err == nil {
			t.Errorf("%s: it is taken", why)
		}
	}
}
