package part

import (
	"bufio"
	"bytes"
	"compress/gzip"
	"errors"
	"fmt"
	"io"
	"reflect"
	"strings"
	"testing"
)

func newLines(text string) *bufio.Reader { return bufio.NewReaderSize(strings.NewReader(text), 1<<16) }

// zipper is kept: a new one takes longer than all that is done with a small part.
var zipper, _ = gzip.NewWriterLevel(nil, gzip.NoCompression)

// zipped gives a text as a part is compressed.
func zipped(text string) []byte {
	var made bytes.Buffer
	zipper.Reset(&made)
	zipper.Write([]byte(text))
	zipper.Close()
	return made.Bytes()
}

// What is read ahead is what is read: all lines, and the same error at the end, as often as it is asked for.
func TestWhatIsReadAhead(t *testing.T) {
	good, cut := aPart(), aPart()
	cut.lines = cut.lines[:5]
	for _, whole := range []*aWhole{good, cut} {
		data := whole.written(t)
		_, lines, failed := readAll(data)
		if failed == nil {
			failed = io.EOF
		}
		reader, err := NewReader(bytes.NewReader(data))
		if err != nil {
			t.Fatal(err)
		}
		ahead := NewAhead(reader)
		if !reflect.DeepEqual(ahead.Head(), whole.head) {
			t.Errorf("%+v", ahead.Head())
		}
		for _, line := range lines {
			if next, err := ahead.Next(); err != nil || !reflect.DeepEqual(next, line) {
				t.Errorf("%+v, %v", next, err)
			}
		}
		for again := 0; again < 3; again++ {
			if _, err := ahead.Next(); err == nil || err.Error() != failed.Error() {
				t.Errorf("%v, not %v", err, failed)
			}
		}
		ahead.Close()
	}
}

// linesAhead is how many lines are read ahead at most.
const linesAhead = (batchesAhead + 2) * linesOfABatch

// Who closes a reader ahead, having taken few lines or none, doesn't wait for the rest of the part.
func TestWhatIsReadAheadIsClosed(t *testing.T) {
	long := aPart()
	begin, end := long.lines[:1:1], []Line{{End: &End{Folder: "docs", Names: 50 * linesAhead, Max: 9}}, long.lines[7], long.lines[8]}
	for number := 0; number < 50*linesAhead; number++ {
		begin = append(begin, Line{Name: &Name{Name: Bytes(fmt.Sprintf("%05d", number)), Out: []LeftOut{{Kind: Special, Why: "x"}}}})
	}
	long.lines = append(begin, end...)
	written := long.written(t)
	for taken := 0; taken < 2; taken++ {
		reader, err := NewReader(bytes.NewReader(written))
		if err != nil {
			t.Fatal(err)
		}
		ahead := NewAhead(reader)
		for line := 0; line < taken; line++ {
			if _, err := ahead.Next(); err != nil {
				t.Error(err)
			}
		}
		ahead.Close()
		if _, isOpen := <-ahead.batches; isOpen || reader.count > 25*linesAhead {
			t.Errorf("it still reads, or has read %d lines", reader.count)
		}
		for err = nil; err == nil; {
			_, err = ahead.Next()
		}
		if !errors.Is(err, errClosed) {
			t.Error(err)
		}
	}
}

// The marks of what is on a disk, and of what is left out.
func TestMarks(t *testing.T) {
	if (*Node)(nil).Mark() != "" {
		t.Error("what isn't there has a mark")
	}
	file := Node{Size: 1, ModifiedS: 2, ModifiedNs: 3, Permissions: 4, Stamp: "5"}
	for place, changed := range []Node{{Type: symlink, Size: 1, ModifiedS: 2, ModifiedNs: 3, Permissions: 4, Stamp: "5"}, {Size: 2, ModifiedS: 2, ModifiedNs: 3, Permissions: 4, Stamp: "5"},
		{Size: 1, ModifiedS: 3, ModifiedNs: 3, Permissions: 4, Stamp: "5"}, {Size: 1, ModifiedS: 2, ModifiedNs: 4, Permissions: 4, Stamp: "5"},
		{Size: 1, ModifiedS: 2, ModifiedNs: 3, Permissions: 5, Stamp: "5"}, {Size: 1, ModifiedS: 2, ModifiedNs: 3, Permissions: 4, Stamp: "6"},
		{Size: 1, ModifiedS: 2, ModifiedNs: 3, Permissions: 4, Stamp: "5", Target: "x"}} {
		if changed.Mark() == file.Mark() {
			t.Errorf("%d: %s", place, file.Mark())
		}
	}
	directory, later := Node{Type: 1, Permissions: 4, Stamp: "5"}, Node{Type: 1, ModifiedS: 9, Size: 9, Permissions: 4, Stamp: "5"}
	if directory.Mark() != later.Mark() || directory.Mark() == (&Node{Type: 1, Permissions: 5, Stamp: "5"}).Mark() || directory.Mark() == (&Node{Type: 1, Permissions: 4, Stamp: "6"}).Mark() {
		t.Error("a directory's mark is that of what stands in it")
	}
	for _, row := range []struct {
		name                 Name
		isDamaged, isIgnored bool
	}{
		{Name{}, false, false}, {Name{Disk: &Node{}}, false, false}, {Name{Disk: &Node{Lost: "x"}}, true, false},
		{Name{Out: []LeftOut{{Kind: Damaged}}}, true, false}, {Name{Out: []LeftOut{{Kind: Special}, {Kind: Damaged}}}, true, false},
		{Name{Out: []LeftOut{{Kind: Ignored}}}, false, true}, {Name{Out: []LeftOut{{Kind: Special}, {Kind: Ignored}}}, false, true}, {Name{Out: []LeftOut{{Kind: Special}}}, false, false},
	} {
		if row.name.IsDamaged() != row.isDamaged || row.name.IsIgnored() != row.isIgnored {
			t.Errorf("%+v: %v, %v", row.name, row.name.IsDamaged(), row.name.IsIgnored())
		}
	}
	elsewhere := LeftOut{Kind: Ignored, Why: WhyIgnoredElsewhere}
	for _, row := range []struct {
		out                   []LeftOut
		isIgnored, isToldHere bool
	}{
		{nil, false, true}, {[]LeftOut{elsewhere, elsewhere}, false, true}, {[]LeftOut{elsewhere, {Kind: Ignored, Why: WhyIgnored}}, true, false},
		{[]LeftOut{elsewhere, {Kind: Special}}, false, false}, {[]LeftOut{{Kind: Special, Why: WhyIgnoredElsewhere}}, false, false},
	} {
		if name := (&Name{Out: row.out}); name.IsIgnored() != row.isIgnored || name.IsToldHere() != row.isToldHere {
			t.Errorf("%+v: %v, %v", row.out, name.IsIgnored(), name.IsToldHere())
		}
	}
	for _, look := range []*Look{nil, {ID: lookID}, {After: map[string]string{}}} {
		if is := (&Head{Look: look}).hasBytes(); is != (look == nil || look.ID != "") {
			t.Errorf("%+v has bytes: %v", look, is)
		}
	}
	for size, count := range map[int64]int64{0: 1, 1: 1, 10: 1, 11: 2, 20: 2, 21: 3} {
		if is := CountOfBlocks(size, 10); is != count {
			t.Errorf("%d bytes are %d blocks", size, is)
		}
	}
}
