package history

import (
	"fmt"
	"math/rand"
	"reflect"
	"testing"

	"syncthing-audit/part"
)

// someLine gives what a part may have of a name: a file that is read, in part or not at all, with its record or without, or something else.
func someLine(random *rand.Rand, name string) *part.Name {
	content := func() part.Content {
		return part.Content{Size: int64(8 + random.Intn(2)), BlockSize: 131072, Hash: part.Hash{byte(random.Intn(2))}}
	}
	line := &part.Name{Name: part.Bytes(name), NotRead: random.Intn(9) == 0}
	if random.Intn(3) > 0 {
		line.Own = &part.Record{ModifiedS: int64(random.Intn(2) + 50), ModifiedNs: random.Intn(2)}
		if own := content(); random.Intn(4) > 0 {
			line.Own.Content = &own
		}
	}
	if random.Intn(6) > 0 {
		read := content()
		line.Disk = &part.Node{Size: read.Size, ModifiedS: int64(random.Intn(2)), ModifiedNs: random.Intn(2), Contents: []part.Content{read}}
		switch random.Intn(9) {
		case 0:
			line.Disk = &part.Node{Type: 1}
		case 1:
			line.Disk.Contents, line.Disk.Lost = nil, "read: input/output error"
		case 2:
			line.Disk.Lost = "read: input/output error"
		case 3:
			line.Disk.Unread = 1
		case 4:
			line.Disk.Differ = &part.Differ{Count: 1}
		}
	}
	switch random.Intn(9) {
	case 0:
		line.Out = []part.LeftOut{{Kind: part.Unreadable}}
	case 1:
		line.Moved = []string{part.MovedRecord}
	}
	return line
}

// kept says in plain words what is kept of a name behind a part that has this line of it, or none: what was read, what was kept before, or nothing.
func kept(line *part.Name, isOverWire, isOfRecords bool) string {
	if line == nil {
		return "nothing"
	}
	if isOverWire && (isOfRecords || line.NotRead) || len(line.Out)+len(line.Moved) > 0 {
		return "as before"
	}
	disk, own := line.Disk, line.Own
	switch {
	case disk == nil:
		return "nothing"
	case isOverWire && (own == nil || own.Content == nil || disk.Differ != nil || disk.Size != own.Content.Size):
		return "as before"
	case disk.Lost != "" || disk.Unread > 0:
		return "as before"
	case len(disk.Contents) == 0:
		return "nothing"
	case isOverWire:
		return fmt.Sprint(own.ModifiedS, own.ModifiedNs, disk.Contents[0])
	}
	return fmt.Sprint(disk.ModifiedS, disk.ModifiedNs, disk.Contents[0])
}

// Night by night the history has of each name what a plain reading of the parts says, whether they were made at the devices or over the wire.
func TestWhatNightsLeaveOfNames(t *testing.T) {
	for seed := int64(1); seed <= 15; seed++ {
		random, history, due := rand.New(rand.NewSource(seed)), opened(t), map[string]string{}
		for day := 1; day <= 6; day++ {
			isOverWire, isOfRecords := random.Intn(2) == 0, random.Intn(4) == 0
			head := &part.Head{Device: ids[0], Folders: []part.Folder{{ID: "docs"}}}
			if isOverWire {
				head.Wire = part.NewWire("observer", isOfRecords)
			}
			stream := &made{head: head, lines: []part.Line{{Begin: &part.Begin{Folder: "docs"}}}}
			for _, name := range []string{"a", "b", "c", "d", "e", "f"} {
				var line *part.Name
				if random.Intn(6) > 0 {
					line = someLine(random, name)
					stream.lines = append(stream.lines, part.Line{Name: line})
				}
				if is := kept(line, isOverWire, isOfRecords); is == "nothing" {
					delete(due, name)
				} else if is != "as before" {
					due[name] = fmt.Sprint(night(day).Unix(), is)
				}
			}
			stream.lines = append(stream.lines, part.Line{End: &part.End{Folder: "docs", Last: true}})
			if err := history.Take(stream, night(day)); err != nil {
				t.Fatal(err)
			}
			found := map[string]string{}
			for name, reading := range history.readings(t, 0) {
				found[name] = fmt.Sprint(reading.At.Unix(), fmt.Sprint(reading.ModifiedS, reading.ModifiedNs, reading.Content))
			}
			if !reflect.DeepEqual(found, due) {
				t.Fatalf("seed %d, night %d, over the wire %v:\n%v\nnot\n%v", seed, day, isOverWire, found, due)
			}
		}
	}
}
