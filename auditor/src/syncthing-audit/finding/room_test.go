package finding

import (
	"fmt"
	"testing"

	"syncthing-audit/join"
	"syncthing-audit/part"
)

// Of what a device knows of others' records the versions are kept that it hasn't itself, and nothing else of them.
func TestWhatIsKeptOfViews(t *testing.T) {
	seen := &part.Record{Version: [][2]uint64{{1, 2}}, Content: &part.Content{Size: 7}, Target: "a"}
	row := &join.Row{Name: "a", At: []*part.Name{{Name: "a", Views: []part.Seen{{View: 1, Record: seen}}}, nil, {Name: "a", Own: seen, Views: []part.Seen{{View: 2, Record: seen}}}}}
	kept := (&Room{}).Keep(row)
	views := kept.At[0].Views
	if len(views) != 1 || views[0].View != 1 || fmt.Sprint(views[0].Record) != fmt.Sprint(&part.Record{Version: seen.Version}) || kept.At[1] != nil || kept.At[2].Views != nil {
		t.Errorf("%+v", kept.At)
	}
	if row.At[0].Views[0].Record.Content == nil {
		t.Error("the row that is audited has lost what it has")
	}
	if (&Room{MostKept - 2}).Keep(row) != nil {
		t.Error("it is kept without room")
	}
}
