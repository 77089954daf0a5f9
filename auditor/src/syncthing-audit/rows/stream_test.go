package rows

import (
	"bytes"
	"encoding/json"
	"fmt"
	"math/rand"
	"reflect"
	"strings"
	"testing"

	"syncthing-audit/join"
	"syncthing-audit/part"
)

// streamed gives a folder's streams of these rows, and which rows are left out.
func streamed(folder *join.Folder, rows []*join.Row) (made []*Piece, out []string) {
	stream := NewStream(folder)
	for _, row := range rows {
		full, left := stream.Add(row)
		if left != nil {
			out = append(out, row.Name)
		}
		if full != nil {
			made = append(made, full)
		}
	}
	return append(made, stream.Take()), out
}

// decoded gives a JSON text, whose numbers are texts.
func decoded(t *testing.T, text []byte) interface{} {
	var read interface{}
	decoder := json.NewDecoder(bytes.NewReader(text))
	decoder.UseNumber()
	if err := decoder.Decode(&read); err != nil {
		t.Fatalf("%s: %v", text, err)
	}
	return read
}

// expanded gives the document for which a stream stands.
func expanded(t *testing.T, stream []byte) object {
	lines := bytes.SplitAfter(stream, []byte("\n"))
	made := decoded(t, lines[0]).(object)
	devices := made["cut"].(object)["folders"].([]interface{})[0].(object)["devices"].([]interface{})
	for _, line := range lines[1 : len(lines)-1] {
		row := decoded(t, line).([]interface{})
		records, nodes := row[2].([]interface{}), row[3].([]interface{})
		checkEachOnce(t, line, records)
		checkEachOnce(t, line, nodes)
		add := func(to object, list string, from []interface{}, place interface{}) {
			if at := int(numberIn(place)); at > 0 {
				to[list] = append(to[list].([]interface{}), from[at-1])
			}
		}
		last := 0
		for _, one := range row[4].([]interface{}) {
			cell := one.([]interface{})
			number := int(numberIn(cell[0]))
			device := devices[number-1].(object)
			add(device, "own", records, cell[1])
			add(device, "store", nodes, cell[2])
			for _, view := range cell[4].([]interface{}) {
				add(device["views"].([]interface{})[numberIn(view.([]interface{})[0])-1].(object), "records", records, view.([]interface{})[1])
			}
			if row[0] != "docs" || number <= last || numberIn(cell[3]) != 0 || fmt.Sprint(cell[1:]) == "[0 0 0 []]" {
				t.Errorf("%s", line)
			}
			last = number
		}
	}
	return made
}

func numberIn(value interface{}) int64 {
	number, err := value.(json.Number).Int64()
	if err != nil {
		panic(err)
	}
	return number
}

// checkEachOnce says which thing stands twice in a list.
func checkEachOnce(t *testing.T, line []byte, list []interface{}) {
	for place := range list {
		for _, other := range list[:place] {
			if reflect.DeepEqual(list[place], other) {
				t.Errorf("%v stands twice: %s", other, line)
			}
		}
	}
}

// alike gives a row of which the members mostly have and see one thing, as most names are, with other sequences.
func alike(random *rand.Rand, name string, sequence int64) *join.Row {
	row := randomDirectRow(random, name, sequence)
	one := randomRecord(random, sequence)
	for member, at := range row.At {
		if at == nil {
			continue
		}
		if own := *one; random.Intn(4) > 0 {
			own.Sequence += int64(member)
			at.Own = &own
		}
		for place := range at.Views {
			if seen := *one; random.Intn(4) > 0 {
				seen.Sequence += int64(random.Intn(3))
				at.Views[place].Record = &seen
			}
		}
	}
	return row
}

// seenAlone gives a row of which no member has more than others' records.
func seenAlone(random *rand.Rand, name string, sequence int64) *join.Row {
	row := alike(random, name, sequence)
	for _, at := range row.At {
		if at != nil {
			at.Own, at.Disk = nil, nil
		}
	}
	return row
}

// isKnownDirectly says whether anything holds a name at members.
func isKnownDirectly(row *join.Row) bool {
	for _, at := range row.At {
		if at == nil {
			continue
		}
		if at.Own != nil || at.Disk != nil {
			return true
		}
		for _, seen := range at.Views {
			if seen.View > 0 && !seen.Record.Invalid {
				return true
			}
		}
	}
	return false
}

// has says whether members have anything of a name: what only the first view of each has is of no member.
func has(row *join.Row) bool {
	for _, at := range row.At {
		if at != nil && (at.Own != nil || at.Disk != nil || len(at.Views) > 1 || len(at.Views) == 1 && at.Views[0].View > 0) {
			return true
		}
	}
	return false
}

// A stream stands for the document of its names, and has each record and node once.
func TestStreamsEqualADirectReading(t *testing.T) {
	unknown := 0
	for seed := int64(1); seed <= 100; seed++ {
		random := rand.New(rand.NewSource(seed))
		rows, stand := []*join.Row{}, []*join.Row{}
		for place := 0; place < 20; place++ {
			row := []func(*rand.Rand, string, int64) *join.Row{randomDirectRow, alike, alike, seenAlone}[random.Intn(4)](random, fmt.Sprintf("%02d <\"ü\n", place), int64(place*10+1))
			if rows = append(rows, row); has(row) {
				stand = append(stand, row)
			}
		}
		made, out := streamed(threeDevices(), rows)
		if len(made) != 1 || out != nil || len(made[0].Rows) != len(stand) || made[0].Folder != "docs" || made[0].Own != "x" || !made[0].IsStream() {
			t.Fatalf("seed %d: %+v, without %v", seed, made, out)
		}
		if is, due := expanded(t, made[0].Written), directDocument(threeDevices(), stand, false); !reflect.DeepEqual(is, due) {
			t.Fatalf("seed %d: %s is\n%v, not\n%v", seed, made[0].Written, is, due)
		}
		for _, row := range stand {
			if !isKnownDirectly(row) {
				made[0].Unknown--
				unknown++
			}
		}
		if made[0].Unknown != 0 {
			t.Errorf("seed %d: %d more names are unknown", seed, made[0].Unknown)
		}
	}
	if unknown == 0 {
		t.Error("all names were known")
	}
}

// What two members have on their disks stands once where a document says the same of it, however the files were cut; and twice where it doesn't.
func TestNodesThatAreAlike(t *testing.T) {
	content := func(hash byte, blockSize int64) []part.Content {
		return []part.Content{{Size: 5, BlockSize: blockSize, Hash: [32]byte{hash}}}
	}
	nodes := []part.Node{{ModifiedS: 5}, {ModifiedS: 5, Contents: content(1, 1<<17)}, {ModifiedS: 5, Contents: content(1, 1<<18)}, {ModifiedS: 5, Contents: content(2, 1<<17)},
		{ModifiedS: 6, Contents: content(1, 1<<17)}, {ModifiedS: 5, ModifiedNs: 7, Contents: content(1, 1<<17)}, {ModifiedS: 5, ModifiedNs: 7}, {Type: 1, ModifiedS: 5}, {Type: 4, ModifiedS: 5, Target: "x"}, {Type: 4, ModifiedS: 5, Target: "y"}}
	for first := range nodes {
		for second := range nodes {
			one, other := nodes[first], nodes[second]
			row := rowOf("a", 1, 5)
			row.At = append(row.At, nil) // of the third one
			row.At[0].Disk, row.At[1].Disk = &one, &other
			made, out := streamed(threeDevices(), []*join.Row{row})
			if len(made) != 1 || out != nil {
				t.Fatalf("%d and %d: %+v, without %v", first, second, made, out)
			}
			if is, due := expanded(t, made[0].Written), directDocument(threeDevices(), []*join.Row{row}, false); !reflect.DeepEqual(is, due) {
				t.Errorf("%d and %d: %s is\n%v, not\n%v", first, second, made[0].Written, is, due)
			}
		}
	}
}

// longRow gives a name whose line has about so many bytes, in targets of two views.
func longRow(name string, sequence int64, bytes int) *join.Row {
	row := rowOf(name, sequence, 5)
	for _, at := range row.At {
		at.Views[0].Record = &part.Record{Type: 4, Sequence: sequence, Target: strings.Repeat(fmt.Sprint(len(row.At)), bytes/2)}
		row.At[0].Own.ModifiedS++
	}
	row.At[0].Views[0].Record.ModifiedS = 7
	return row
}

// What no line has room for is left out, and those before and behind it stand in one stream.
func TestLongLines(t *testing.T) {
	rows := []*join.Row{}
	for place, bytes := range []int{1, 1, mostBytesOfLine, mostBytesOfLine + 1, 1, mostBytesOfLine - 2000, mostBytesOfLine} {
		rows = append(rows, longRow(fmt.Sprint(place), int64(place+1), bytes))
	}
	made, out := streamed(twoDevices(), rows)
	if fmt.Sprint(out) != "[2 3 6]" || len(made) != 1 || len(made[0].Rows) != 4 || bytes.Count(made[0].Written, []byte("\n")) != 5 {
		t.Errorf("%d streams, without %v", len(made), out)
	}
	stream := NewStream(twoDevices())
	if _, out := stream.Add(longRow("a", 1, mostBytesOfLine)); out == nil || out.Kind != part.Large || out.Below {
		t.Errorf("%+v", out)
	}
	if _, out := stream.Add(rowOf("b", 1, 5)); out != nil {
		t.Errorf("what is left out has its sequence: %+v", out)
	}
}

// lineOf gives the line of a row of two devices.
func lineOf(of *join.Row) []byte {
	made := &row{}
	made.take(cutOf(twoDevices()), of)
	return made.line()
}

// rowOfLine gives a name whose line has this length.
func rowOfLine(name string, sequence int64, length int) *join.Row {
	row := rowOf(name, sequence, 5)
	link := &part.Record{Type: 4, Sequence: sequence}
	row.At[0].Views[0].Record = link
	link.Target = "x"
	short := len(lineOf(row))
	link.Target = strings.Repeat("x", 1+length-short)
	return row
}

// A line of just as many bytes as it may have is in a stream, and a stream of just as many lines' bytes is one.
func TestLinesOfJustAsManyBytes(t *testing.T) {
	const ofLine, ofStream = 1 << 20, 2 << 20 // `syncaudit rows` reads no longer lines
	for _, length := range []int{ofLine - 1, ofLine, ofLine + 1} {
		made, out := streamed(twoDevices(), []*join.Row{rowOfLine("a", 1, length)})
		if len(made) != 1 || len(made[0].Rows)+len(out) != 1 || (out == nil) != (length <= ofLine) {
			t.Errorf("%d bytes: %d streams, without %v", length, len(made), out)
		}
	}
	for more := -1; more < 2; more++ {
		rows := []*join.Row{rowOfLine("a", 1, ofLine), rowOfLine("b", 2, ofStream-ofLine-500), rowOfLine("c", 3, 500+more)}
		if made, out := streamed(twoDevices(), rows); out != nil || (len(made) == 1) != (more <= 0) {
			t.Errorf("%d bytes more than a stream: %d streams, without %v", more, len(made), out)
		}
	}
}

// A stream has no more names and bytes than it may, and no two of one sequence; one that is left out takes no room.
func TestBoundsOfStreams(t *testing.T) {
	const mostNames = 1024
	rows := []*join.Row{}
	for place := 0; place < 2*mostNames+1; place++ {
		rows = append(rows, rowOf(fmt.Sprintf("%05d", place), int64(place+1), 5))
	}
	rows[1].At[0].Own.Sequence = 1
	made, out := streamed(twoDevices(), rows)
	if len(made) != 2 || len(made[0].Rows) != mostNames || len(made[1].Rows) != mostNames || len(out) != 1 || out[0] != "00001" {
		t.Errorf("%d streams, without %v", len(made), out)
	}
	long := []*join.Row{}
	for place := 0; place < 5; place++ {
		long = append(long, longRow(fmt.Sprint(place), int64(place+1), bytesOfStream/3))
	}
	made, _ = streamed(twoDevices(), long)
	if len(made) != 3 || len(made[0].Rows) != 2 || len(made[1].Rows) != 2 {
		t.Errorf("%d streams of long lines", len(made))
	}
	if empty := NewStream(twoDevices()).Take(); len(empty.Rows) != 0 || bytes.Count(empty.Written, []byte("\n")) != 1 {
		t.Errorf("a stream without names: %s", empty.Written)
	}
}

// Of some names of a stream there is one with these names' very lines.
func TestSomeNamesOfAStream(t *testing.T) {
	random := rand.New(rand.NewSource(1))
	rows := []*join.Row{}
	for place := 0; place < 9; place++ {
		rows = append(rows, alike(random, fmt.Sprint(place), int64(10*place+1)))
	}
	made, _ := streamed(threeDevices(), rows)
	for seed := 0; seed < 40; seed++ {
		names, some := map[string]bool{"none": true}, []*join.Row{}
		for _, row := range made[0].Rows {
			if random.Intn(2) == 0 {
				names[row.Name] = true
				some = append(some, row)
			}
		}
		if due, _ := streamed(threeDevices(), some); !reflect.DeepEqual(made[0].Some(names), due[0]) {
			t.Fatalf("%v: %+v, not %+v", names, made[0].Some(names), due[0])
		}
	}
}

// A later stream is written in the room of one that is answered, and in no other one's.
func TestTheRoomOfAnAnsweredStream(t *testing.T) {
	of := func(name string) *Piece {
		made, _ := streamed(twoDevices(), []*join.Row{rowOf(name, 1, 5)})
		return made[0]
	}
	kept, dropped := of("kept"), of("dropped")
	due := string(kept.Written)
	dropped.Drop()
	for place := 0; place < 9; place++ {
		if next := of("later"); dropped.Written != nil || string(kept.Written) != due || string(next.Written) != strings.ReplaceAll(due, "kept", "later") {
			t.Fatalf("%q is dropped, %q is kept, %q comes later", dropped.Written, kept.Written, next.Written)
		}
	}
}
