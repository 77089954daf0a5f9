package rows

import (
	"encoding/json"
	"fmt"
	"reflect"
	"strings"
	"testing"

	"github.com/syncthing/syncthing/lib/protocol"
	"syncthing-audit/join"
	"syncthing-audit/limits"
	"syncthing-audit/part"
)

// twoDevices gives a folder of two devices, each with a view of the other.
func twoDevices() *join.Folder {
	made := &join.Folder{ID: "docs"}
	for number := byte(1); number <= 2; number++ {
		other := protocol.DeviceID{7: 3 - number}.String()
		about := &part.Folder{ID: "docs", Kind: "send-receive", IndexID: 1, Max: 99999, Views: []part.View{{Device: other, IndexID: 1, Max: 99999}},
			Sharing: []part.Sharing{{Device: other}}}
		head := &part.Head{Device: protocol.DeviceID{7: number}.String()}
		made.Members = append(made.Members, join.Member{Device: &join.Device{Head: head, Number: uint64(number)}, About: about})
	}
	return made
}

// rowOf gives a name that both devices hold, record and see, with so many bytes.
func rowOf(name string, sequence, size int64) *join.Row {
	one := part.Record{ModifiedBy: 1, Sequence: sequence, Content: &part.Content{Size: size, BlockSize: int64(protocol.BlockSize(size))}}
	row := &join.Row{Name: name}
	data := []byte(nil) // of a file that documents with bytes have
	if size <= limits.MostFileBytes {
		data = make([]byte, size)
	}
	for device := 0; device < 2; device++ {
		own := one
		row.At = append(row.At, &part.Name{Name: part.Bytes(name), Own: &own, Views: []part.Seen{{Record: &one}},
			Disk: &part.Node{Size: size, Contents: []part.Content{*one.Content}, Data: data}})
	}
	return row
}

// namesIn gives the names of each document, of which every list of every device has the same.
func namesIn(t *testing.T, documents []*Piece) []string {
	all := []string{}
	for _, one := range documents {
		var read struct {
			Cut struct {
				Folders []struct {
					Devices []struct {
						Own, Store []struct{ Name string }
						Views      []struct{ Records []struct{ Name string } }
					}
				}
				Links []struct{ A, B uint64 }
			}
		}
		if err := json.Unmarshal(one.Written, &read); err != nil {
			t.Fatal(err)
		}
		lists := map[string]bool{}
		for _, device := range read.Cut.Folders[0].Devices {
			for _, list := range [][]struct{ Name string }{device.Own, device.Store, device.Views[0].Records} {
				names := ""
				for _, one := range list {
					names += one.Name
				}
				lists[names] = true
			}
		}
		if len(lists) != 1 || len(read.Cut.Links) != 1 {
			t.Errorf("lists differ: %v, links %v", lists, read.Cut.Links)
		}
		for names := range lists {
			all = append(all, names)
		}
	}
	return all
}

// built gives the documents of these rows.
func built(t *testing.T, withBytes bool, most int, rows ...*join.Row) ([]*Piece, []string) {
	filling := NewDocuments(twoDevices(), withBytes, most)
	var documents []*Piece
	var out []string
	for _, row := range rows {
		full, why := filling.Add(row)
		if why != nil {
			out = append(out, row.Name)
		}
		if full != nil {
			documents = append(documents, full)
		}
	}
	return append(documents, filling.Take()), out
}

func TestDocumentsWithBytes(t *testing.T) {
	const unit = 16 << 10 // a document here has room for 64 of them
	cases := []struct {
		why   string
		sizes []int64
		parts []string
		out   []string
	}{
		{"no names make one document", nil, []string{""}, nil},
		{"what fits stays together", []int64{unit, unit, unit}, []string{"abc"}, nil},
		{"bytes stand twice at each of two devices", []int64{8 * unit, 7 * unit, 2 * unit}, []string{"ab", "c"}, nil},
		{"consecutive names alone", []int64{unit, 15 * unit, unit, unit}, []string{"a", "b", "cd"}, nil},
		{"what fits into no document is left out", []int64{unit, 16 * unit, unit}, []string{"ac"}, []string{"b"}},
	}
	for _, one := range cases {
		var rows []*join.Row
		for place, size := range one.sizes {
			rows = append(rows, rowOf(string(rune('a'+place)), int64(place+1), size))
		}
		documents, out := built(t, true, 64*unit, rows...)
		if names := namesIn(t, documents); !reflect.DeepEqual(names, one.parts) || !reflect.DeepEqual(out, one.out) {
			t.Errorf("%s: %q, without %q", one.why, names, out)
		}
	}
}

func TestManyNames(t *testing.T) {
	var rows []*join.Row
	for number := int64(1); number <= 2*limits.MostNames+1; number++ {
		rows = append(rows, rowOf(fmt.Sprintf("%05d", number), number, 1<<40))
	}
	documents, out := built(t, false, limits.MostBytes, rows...)
	counts := []int{}
	for _, names := range namesIn(t, documents) {
		counts = append(counts, len(names)/5)
	}
	if expected := []int{limits.MostNames, limits.MostNames, 1}; !reflect.DeepEqual(counts, expected) || out != nil {
		t.Errorf("names %v, without %q", counts, out)
	}
}

// The bound for a name's length is one of its document, too.
func TestLengths(t *testing.T) {
	for _, withBytes := range []bool{false, true} {
		filling := NewDocuments(twoDevices(), withBytes, limits.MostBytes)
		room := filling.room
		for place, size := range []int64{0, 5, 300} {
			filling.Add(rowOf(string(rune('a'+place)), int64(place+1), size))
		}
		bound := limits.MostBytes - room + filling.used
		if written := filling.Take().Written; len(written) > bound {
			t.Errorf("%d bytes, bound %d", len(written), bound)
		}
	}
}

func TestSequences(t *testing.T) {
	_, out := built(t, false, limits.MostBytes, rowOf("a", 1, 5), rowOf("b", 1, 5), rowOf("c", 2, 5))
	if strings.Join(out, "") != "b" {
		t.Errorf("without %q", out)
	}
}
