package rows

import (
	"bytes"
	"crypto/sha256"
	"encoding/hex"
	"encoding/json"
	"fmt"
	"math/rand"
	"reflect"
	"strconv"
	"testing"

	"github.com/syncthing/syncthing/lib/protocol"
	"syncthing-audit/join"
	"syncthing-audit/limits"
	"syncthing-audit/part"
	"syncthing-audit/shell"
)

// object is a JSON object, whose numbers are texts.
type object = map[string]interface{}

// threeDevices gives a folder of three members: each has views of the two others and of a device that isn't there; the second and the third
// don't share it with each other.
func threeDevices() *join.Folder {
	folder := &join.Folder{ID: "docs", Own: "x"}
	for number := byte(1); number <= 3; number++ {
		about := &part.Folder{ID: "docs", Kind: []string{"send-receive", "send-only", "receive-only"}[number-1], IndexID: uint64(number) + 10, Max: int64(number) + 100}
		for _, other := range []byte{9, 1, 2, 3} {
			id := protocol.DeviceID{7: other}.String()
			about.Views = append(about.Views, part.View{Device: id, IndexID: uint64(other) + 20, Max: int64(other) + 200})
			if other != number && other != 9 && other*number != 6 {
				about.Sharing = append(about.Sharing, part.Sharing{Device: id})
			}
		}
		head := &part.Head{Device: protocol.DeviceID{7: number}.String()}
		folder.Members = append(folder.Members, join.Member{Device: &join.Device{Head: head, Number: uint64(number)}, About: about})
	}
	return folder
}

// randomRecord gives a record of any type, with each field set or not.
func randomRecord(random *rand.Rand, sequence int64) *part.Record {
	record := &part.Record{Type: []int{0, 0, 1, 4}[random.Intn(4)], ModifiedS: int64(random.Intn(3)) - 1, ModifiedNs: random.Intn(2) * 5, ModifiedBy: 1<<63 + uint64(random.Intn(2)),
		Sequence: sequence, Deleted: random.Intn(5) == 0, Invalid: random.Intn(5) == 0}
	for counter := 0; counter < random.Intn(4); counter++ {
		record.Version = append(record.Version, [2]uint64{uint64(counter + 1), uint64(random.Intn(3) + 10)})
	}
	switch {
	case record.Deleted:
	case record.Type == 4:
		record.Target = []string{"a", "<b>\"", "ü"}[random.Intn(3)]
	case record.Type == 0:
		data := randomData(random)
		record.Content, record.Blocks = contentOfBytes(data), [][32]byte{sha256.Sum256(data)}
	}
	return record
}

func randomData(random *rand.Rand) []byte {
	return []byte([]string{"", "text\t\n", "\x00", "\xff", "other"}[random.Intn(5)])
}

func contentOfBytes(data []byte) *part.Content {
	return &part.Content{Size: int64(len(data)), BlockSize: protocol.MinBlockSize, Hash: sha256.Sum256(data)}
}

// recordIn gives a record as a view has it.
func recordIn(seen part.Seen) *part.Record {
	record := *seen.Record
	if seen.Same != 0 {
		record.Sequence = seen.Same
	}
	return &record
}

// randomDirectRow gives what three members have of a name.
func randomDirectRow(random *rand.Rand, name string, sequence int64) *join.Row {
	row := &join.Row{Name: name, At: make([]*part.Name, 3)}
	for member := range row.At {
		if random.Intn(5) == 0 {
			continue
		}
		at := &part.Name{Name: part.Bytes(name)}
		if random.Intn(4) > 0 {
			at.Own = randomRecord(random, sequence)
		}
		for view := 0; view < 4; view++ {
			if random.Intn(3) == 0 {
				seen := part.Seen{View: view, Record: randomRecord(random, sequence+1000)}
				if at.Own != nil && random.Intn(2) == 0 {
					seen.Same, seen.Record = seen.Record.Sequence, at.Own
				}
				at.Views = append(at.Views, seen)
			}
		}
		if random.Intn(4) > 0 {
			at.Disk = &part.Node{Type: []int{0, 1, 4}[random.Intn(3)], ModifiedS: int64(random.Intn(3)), ModifiedNs: random.Intn(2) * 7}
			if at.Disk.Type == 4 {
				at.Disk.Target = "x"
			} else if at.Disk.Type == 0 {
				at.Disk.Data = randomData(random)
				at.Disk.Size, at.Disk.Contents = int64(len(at.Disk.Data)), []part.Content{*contentOfBytes(at.Disk.Data)}
			}
		}
		row.At[member] = at
	}
	return row
}

func numberOf[T int | int64 | uint64](value T) json.Number { return json.Number(fmt.Sprint(value)) }

// directRecord gives a record as the documents' page has it, with the members left out that have their defaults.
func directRecord(name string, record *part.Record, withBytes bool) object {
	version := []interface{}{}
	for _, counter := range record.Version {
		version = append(version, []interface{}{numberOf(counter[0]), numberOf(counter[1])})
	}
	told := object{"name": name, "type": numberOf(record.Type), "modified_s": numberOf(record.ModifiedS), "modified_by": numberOf(record.ModifiedBy),
		"version": version, "sequence": numberOf(record.Sequence)}
	if record.ModifiedNs != 0 {
		told["modified_ns"] = numberOf(record.ModifiedNs)
	}
	if record.Deleted {
		told["deleted"] = true
	}
	if record.Invalid {
		told["invalid"] = true
	}
	if record.Target != "" {
		told["target"] = record.Target
	}
	if record.Content != nil {
		size, block := record.Content.Size, sha256.Sum256([]byte(textFor(record.Content)))
		if withBytes {
			block = record.Blocks[0]
		} else {
			size = int64(len(textFor(record.Content)))
		}
		told["block_size"], told["blocks"] = numberOf(protocol.MinBlockSize), []interface{}{hex.EncodeToString(block[:])}
		if size > 0 {
			told["size"] = numberOf(size)
		}
	}
	return told
}

// directNode gives what stands on a disk, and how many bytes of text a document has of it.
func directNode(name string, disk *part.Node, withBytes bool) (object, int) {
	told := object{"name": name, "type": numberOf(disk.Type), "modified_s": numberOf(disk.ModifiedS)}
	if disk.ModifiedNs != 0 {
		told["modified_ns"] = numberOf(disk.ModifiedNs)
	}
	if disk.Target != "" {
		told["target"] = disk.Target
	}
	text := ""
	switch {
	case disk.Contents == nil:
	case !withBytes:
		text = textFor(&disk.Contents[0])
	case len(disk.Data) == 1:
		told["hex"] = hex.EncodeToString(disk.Data)
	default:
		text = string(disk.Data)
	}
	if text != "" {
		told["text"] = text
	}
	return told, len(text)
}

// directDocument gives the document that has these rows.
func directDocument(folder *join.Folder, rows []*join.Row, withBytes bool) object {
	devices := []interface{}{}
	for place, member := range folder.Members {
		own, store, views := []interface{}{}, []interface{}{}, []interface{}{}
		records := map[int][]interface{}{1: {}, 2: {}, 3: {}}
		for _, row := range rows {
			at := row.At[place]
			if at == nil {
				continue
			}
			if at.Own != nil {
				own = append(own, directRecord(row.Name, at.Own, withBytes))
			}
			if at.Disk != nil {
				node, _ := directNode(row.Name, at.Disk, withBytes)
				store = append(store, node)
			}
			for _, seen := range at.Views {
				records[seen.View] = append(records[seen.View], directRecord(row.Name, recordIn(seen), withBytes))
			}
		}
		for view := 1; view <= 3; view++ {
			about := member.About.Views[view]
			views = append(views, object{"of": numberOf(view), "index_id": numberOf(about.IndexID), "max": numberOf(about.Max), "records": records[view]})
		}
		devices = append(devices, object{"device": numberOf(place + 1), "kind": member.About.Kind, "index_id": numberOf(member.About.IndexID), "max": numberOf(member.About.Max),
			"own": own, "store": store, "views": views})
	}
	link := func(other int) object {
		return object{"a": numberOf(1), "b": numberOf(other), "up": false, "epoch": numberOf(0)}
	}
	folders := []interface{}{object{"folder": "docs", "devices": devices}}
	return object{"version": numberOf(2), "cut": object{"folders": folders, "links": []interface{}{link(2), link(3)}}}
}

// room gives the bytes of a row in a document, as the bound counts them, by what the documents' own text takes.
func roomOf(t *testing.T, folder *join.Folder, row *join.Row, withBytes bool) int {
	length := func(of object) int {
		var text bytes.Buffer
		encoder := json.NewEncoder(&text)
		encoder.SetEscapeHTML(false)
		if err := encoder.Encode(of); err != nil {
			t.Fatal(err)
		}
		return text.Len() - 1
	}
	size, greatest := 0, 0
	for _, at := range row.At {
		if at == nil {
			continue
		}
		if at.Own != nil {
			own := length(directRecord(row.Name, at.Own, withBytes)) + 128
			size += own
			if own > greatest {
				greatest = own
			}
		}
		if at.Disk != nil {
			node, text := directNode(row.Name, at.Disk, withBytes)
			size += length(node) + 128 + 2*text
		}
		for _, seen := range at.Views {
			if seen.View > 0 {
				size += length(directRecord(row.Name, recordIn(seen), withBytes)) + 128
			}
		}
	}
	return size + greatest + 192
}

// Made-up rows go into documents that say of each what it is, one after another, each as far as it has room.
func TestDocumentsEqualADirectReading(t *testing.T) {
	full, alone := 0, 0
	for seed := int64(1); seed <= 150; seed++ {
		random := rand.New(rand.NewSource(seed))
		folder, withBytes := threeDevices(), seed%2 == 0
		const fixed = 4096 + 3*512 + 12*256
		room := 3000 + random.Intn(9000)
		filling := NewDocuments(folder, withBytes, fixed+room)
		var all []*join.Row
		var documents []*Piece
		for number := 0; number < 12; number++ {
			row := randomDirectRow(random, "n"+strconv.Itoa(10+number)+[]string{"", "<\"", "ü"}[random.Intn(3)], int64(number+1))
			document, out := filling.Add(row)
			if !has(row) {
				if document != nil || out != nil {
					t.Fatalf("seed %d: %s, of which nobody has anything", seed, row.Name)
				}
				continue
			}
			if isTooLarge := roomOf(t, folder, row, withBytes) > room; isTooLarge != (out != nil) || out != nil && out.Kind != part.Large {
				t.Fatalf("seed %d: %s is left out: %v", seed, row.Name, out)
			}
			if out != nil {
				alone++
				continue
			}
			all = append(all, row)
			if document != nil {
				full++
				documents = append(documents, document)
			}
		}
		documents = append(documents, filling.Take())
		if again := filling.Take(); again.Rows != nil || again.About() != "folder docs, no names" || len(filling.rows) != 0 {
			t.Fatalf("seed %d: what was taken is there still: %+v", seed, again)
		}
		checkDocuments(t, folder, documents, all, withBytes, room)
		if t.Failed() {
			t.Fatalf("seed %d", seed)
		}
	}
	if full == 0 || alone == 0 {
		t.Errorf("%d documents were full, and %d rows too large", full, alone)
	}
}

// checkDocuments checks that these documents have all rows, each as many as have room.
func checkDocuments(t *testing.T, folder *join.Folder, documents []*Piece, all []*join.Row, withBytes bool, room int) {
	for place, document := range documents {
		count, used := len(document.Rows), 0
		if count > len(all) || count == 0 && len(all) > 0 || count > 0 && !reflect.DeepEqual(document.Rows, all[:count]) {
			t.Errorf("document %d has other rows", place)
			return
		}
		for _, row := range all[:count] {
			used += roomOf(t, folder, row, withBytes)
		}
		if used > room || place+1 < len(documents) && used+roomOf(t, folder, all[count], withBytes) <= room {
			t.Errorf("document %d has %d of %d bytes", place, used, room)
		}
		if count > 0 && document.About() != "folder docs, names "+shell.Path(all[0].Name)+" to "+shell.Path(all[count-1].Name) || document.IsStream() {
			t.Errorf("document %d is about %s", place, document.About())
		}
		if document.Folder != "docs" || document.Own != "x" {
			t.Errorf("document %d is of %s, %s", place, document.Folder, document.Own)
		}
		var read object
		decoder := json.NewDecoder(bytes.NewReader(document.Written))
		decoder.UseNumber()
		if err := decoder.Decode(&read); err != nil || bytes.Count(document.Written, []byte("\n")) != 1 {
			t.Error(err)
		}
		if expected := directDocument(folder, all[:count], withBytes); !reflect.DeepEqual(read, expected) {
			t.Errorf("document %d is\n%v, not\n%v", place, read, expected)
		}
		all = all[count:]
	}
	if len(all) > 0 {
		t.Errorf("%d rows are in no document", len(all))
	}
}

// Two names with one sequence number, in the own index or in a view, aren't in one document; one that is left out for that takes none.
func TestOneSequenceOfTwoNames(t *testing.T) {
	at := func(own, view int64) *join.Row {
		row := &join.Row{At: make([]*part.Name, 3)}
		row.At[1] = &part.Name{}
		if own > 0 {
			row.At[1].Own = &part.Record{Sequence: own}
		}
		if view > 0 {
			row.At[1].Views = []part.Seen{{View: 1, Record: &part.Record{Sequence: view}}}
		}
		if own > 0 && view > 0 {
			row.At[1].Views[0].Same, row.At[1].Views[0].Record = view, row.At[1].Own
		}
		return row
	}
	filling := NewDocuments(threeDevices(), false, 1<<20)
	for place, row := range []struct {
		own, view int64
		isOut     bool
	}{{1, 0, false}, {0, 1, false}, {1, 0, true}, {0, 1, true}, {2, 2, false}, {2, 3, true}, {4, 2, true}, {5, 5, false}} {
		if _, out := filling.Add(at(row.own, row.view)); (out != nil) != row.isOut || out != nil && out.Kind != part.OddRecord {
			t.Errorf("%d: %v", place, out)
		}
	}
	if len(filling.rows) != 4 {
		t.Errorf("%d rows", len(filling.rows))
	}
}

// A document has no more names than there may be.
func TestAsManyNamesAsADocumentHas(t *testing.T) {
	filling := NewDocuments(threeDevices(), false, 1<<30)
	for count := 1; count <= limits.MostNames+1; count++ {
		document, _ := filling.Add(&join.Row{At: []*part.Name{{Own: &part.Record{Sequence: int64(count)}}, nil, nil}})
		if isFull := count > limits.MostNames; isFull != (document != nil) || isFull && len(document.Rows) != limits.MostNames {
			t.Fatalf("%d names: %v", count, document)
		}
	}
}
