package part

import (
	"bytes"
	"fmt"
	"io"
	"math/rand"
	"reflect"
	"strings"
	"testing"
)

// sized is a part whose lines have these lengths, in an encoding of its own.
type sized struct {
	lines   []Line
	lengths []int
	taken   int
}

func (s *sized) readHead(*Head) error { return nil }
func (s *sized) length() int          { return s.lengths[s.taken-1] }
func (s *sized) why(err error) error  { return err }

func (s *sized) readLine() (Line, error) {
	if s.taken == len(s.lines) {
		return Line{}, io.EOF
	}
	s.taken++
	return s.lines[s.taken-1], nil
}

// newSized gives a part whose names take these lengths.
func newSized(lengths []int) *Reader {
	text := &sized{lines: []Line{{Begin: &Begin{Folder: "docs"}}}, lengths: append(append([]int{1}, lengths...), 1)}
	for number := range lengths {
		text.lines = append(text.lines, Line{Name: &Name{Name: Bytes(fmt.Sprintf("%05d", number))}})
	}
	text.lines = append(text.lines, Line{End: &End{Folder: "docs", Names: int64(len(lengths)), Last: true}})
	reader := &Reader{text: text, head: Head{Folders: []Folder{{ID: "docs"}}}}
	reader.rules.head = &reader.head
	return reader
}

// A batch ends with the line that fills it, by its lines or by their bytes, and all batches together are the part.
func TestBatchesEndAsTheyAreFull(t *testing.T) {
	random := rand.New(rand.NewSource(1))
	for turn := 0; turn < 300; turn++ {
		lengths := []int{}
		for count := random.Intn(3 * linesOfABatch); count > 0; count-- {
			lengths = append(lengths, []int{1, 1, 1, bytesOfABatch - 2, bytesOfABatch - 1, bytesOfABatch, bytesOfABatch / 2, bytesOfABatch/linesOfABatch + 1}[random.Intn(8)])
		}
		due, bytes, count := []int{}, 0, 0
		for _, length := range append(append([]int{1}, lengths...), 1) {
			bytes, count = bytes+length, count+1
			if bytes >= bytesOfABatch || count == linesOfABatch {
				due, bytes, count = append(due, count), 0, 0
			}
		}
		due = append(due, count)
		reader, found := newSized(lengths), []int{}
		for isOver := false; !isOver; {
			read := reader.batch()
			found, isOver = append(found, len(read.lines)), read.err != nil
			if isOver && read.err != io.EOF {
				t.Fatal(read.err)
			}
		}
		if !reflect.DeepEqual(found, due) {
			t.Fatalf("turn %d: batches of %d lines, not %d", turn, found, due)
		}
	}
}

// A part of many batches is read ahead to its end, and nothing is read behind that.
func TestManyBatchesAreReadAhead(t *testing.T) {
	ahead := NewAhead(newSized(make([]int, 10*linesOfABatch)))
	for count := 0; count < 10*linesOfABatch+2; count++ {
		if _, err := ahead.Next(); err != nil {
			t.Fatalf("line %d: %v", count, err)
		}
	}
	if _, err := ahead.Next(); err != io.EOF {
		t.Errorf("the end is told as %v", err)
	}
	if _, isOpen := <-ahead.batches; isOpen {
		t.Error("more is read behind the end")
	}
	ahead.Close()
}

// The length of a line of JSON is that of its text, with its end.
func TestTheLengthOfALine(t *testing.T) {
	for _, length := range []int{2, 100, 1<<16 - 1, 1 << 16, 1<<16 + 1, 1 << 18} {
		read, into := &lines{from: newLines(`"` + strings.Repeat("x", length-2) + "\"\n")}, ""
		if err := read.read(&into, mostLineBytes); err != nil || read.length() != length+1 {
			t.Errorf("%d bytes are told as %d, %v", length+1, read.length(), err)
		}
	}
}

// What doesn't fit in the buffer is there as a whole all the same, of a reader that fills the buffer each time.
func TestWhatIsLongerThanTheBuffer(t *testing.T) {
	data := make([]byte, 5*bytesOfBuffer)
	rand.New(rand.NewSource(1)).Read(data)
	for _, taken := range []int{0, 1, bytesOfBuffer} {
		for _, count := range []int{bytesOfBuffer - 1, bytesOfBuffer, bytesOfBuffer + 1, 2 * bytesOfBuffer, 3*bytesOfBuffer + 1} {
			all := newFrames(bytes.NewReader(data))
			if there, err := all.want(taken); err != nil || len(there) < taken {
				t.Fatalf("%d bytes: %v", len(there), err)
			}
			all.take(taken)
			there, err := all.want(count)
			if err != nil || len(there) < count || !bytes.HasPrefix(data[taken:], there) || len(all.buffer) > 4*bytesOfBuffer {
				t.Errorf("%d bytes behind %d: %d are there, in a buffer of %d, %v", count, taken, len(there), len(all.buffer), err)
			}
		}
	}
}

// What Syncthing fails at is listed up to a limit, and never more of it than it counts.
func TestHowManyErrorsAreListed(t *testing.T) {
	for _, row := range []struct {
		listed int
		errors int64
		is     bool
	}{{0, 0, true}, {1, 1, true}, {1, 0, false}, {MostErrors, MostErrors, true}, {MostErrors, 99, true}, {MostErrors + 1, 99, false}} {
		wanted := &Wanted{Errors: row.errors, First: make([]NameError, row.listed)}
		if err := checkRest(&Rest{Wanted: wanted}); (err == nil) != row.is {
			t.Errorf("%d of %d: %v", row.listed, row.errors, err)
		}
		if most := (&Wanted{Count: Count{Names: int64(row.listed)}, Errors: row.errors}).Most(); most != row.errors && most != int64(row.listed) || most < row.errors || most < int64(row.listed) {
			t.Errorf("of %d and %d, %d is the most", row.listed, row.errors, most)
		}
	}
}

// A list of a name may be as long as a list may, and no longer, whichever it is.
func TestHowLongListsAre(t *testing.T) {
	for what, field := range map[string]func(count int) []byte{
		"views": func(count int) []byte { return appendName(nil, &Name{Views: make([]Seen, count)}) },
		"out":   func(count int) []byte { return appendName(nil, &Name{Out: make([]LeftOut, count)}) },
		"moved": func(count int) []byte { return appendName(nil, &Name{Moved: make([]string, count)}) },
		"cuts":  func(count int) []byte { return appendName(nil, &Name{Disk: &Node{Contents: make([]Content, count)}}) },
		"spans": func(count int) []byte {
			return appendName(nil, &Name{Differ: &Differ{Ranges: make([][2]int64, count)}})
		},
		"counters":       func(count int) []byte { return appendName(nil, &Name{Own: &Record{Version: make(Version, count)}}) },
		"local counters": func(count int) []byte { return appendName(nil, &Name{Own: &Record{Local: make(Version, count)}}) },
	} {
		for _, count := range []int{1, mostOfAList, mostOfAList + 1} {
			if _, err := new(unpacker).name(field(count)); err != nil != (count > mostOfAList) || err != nil && err != errLongList {
				t.Errorf("%d %s: %v", count, what, err)
			}
		}
	}
}

// Permissions count for nothing where either of both says so.
func TestWhoseConfigurationIgnoresPermissions(t *testing.T) {
	for _, is := range [][2]bool{{false, false}, {false, true}, {true, false}, {true, true}} {
		folder := &Folder{Kind: "send-receive", IgnoresPermissions: is[0]}
		if err := folder.TakeConfigured(&Folder{Kind: "send-receive", IgnoresPermissions: is[1]}); err != nil || folder.IgnoresPermissions != (is[0] || is[1]) {
			t.Errorf("%v: %v, %v", is, folder.IgnoresPermissions, err)
		}
	}
}
