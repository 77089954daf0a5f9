package part

import (
	"bytes"
	"crypto/sha256"
	"errors"
	"fmt"
	"io"
	"math/rand"
	"reflect"
	"strings"
	"testing"
	"testing/iotest"
)

// chunks is a reader that gives as many bytes at once as it likes, now and then none, and the end behind the last or with it.
type chunks struct {
	random *rand.Rand
	data   []byte
	most   int
}

func (c *chunks) Read(to []byte) (int, error) {
	count := c.random.Intn(c.most + 1)
	if count > len(to) {
		count = len(to)
	}
	count = copy(to[:count], c.data)
	c.data = c.data[count:]
	if len(c.data) == 0 && (count == 0 || c.random.Intn(2) == 0) {
		return count, io.EOF
	}
	return count, nil
}

// However bytes come, as many are there as were wanted, in their order, and the sum is that of what was taken.
func TestBytesAreTakenAsTheyAre(t *testing.T) {
	for seed := int64(1); seed <= 20; seed++ {
		random := rand.New(rand.NewSource(seed))
		data := make([]byte, random.Intn(4*bytesOfBuffer))
		random.Read(data)
		all, taken := newFrames(&chunks{random, data, []int{7000, bytesOfBuffer, 1 << 20}[random.Intn(3)]}), 0
		for turn := 0; turn < 40; turn++ {
			count := []int{0, 1, random.Intn(100), random.Intn(bytesOfBuffer), bytesOfBuffer, bytesOfBuffer + 1, random.Intn(2 * bytesOfBuffer)}[random.Intn(7)]
			there, err := all.want(count)
			if err != nil || len(there) < count && len(there) != len(data)-taken || !bytes.HasPrefix(data[taken:], there) {
				t.Fatalf("seed %d: %d of %d bytes at %d of %d, %v", seed, len(there), count, taken, len(data), err)
			}
			if len(there) > 0 {
				count = random.Intn(len(there) + 1)
				if text := all.take(count); !bytes.Equal(text, data[taken:taken+count]) {
					t.Fatalf("seed %d: other bytes were taken", seed)
				}
				taken += count
			}
			if random.Intn(4) == 0 && all.sumOfTaken() != Hash(sha256.Sum256(data[:taken])) {
				t.Fatalf("seed %d: the sum of %d bytes is another one", seed, taken)
			}
			if len(all.buffer) > 4*bytesOfBuffer {
				t.Fatalf("seed %d: %d bytes of room", seed, len(all.buffer))
			}
		}
	}
}

// emptyReads is a reader that gives nothing so often before what it has.
type emptyReads struct {
	count int
	from  io.Reader
}

func (e *emptyReads) Read(to []byte) (int, error) {
	if e.count > 0 {
		e.count--
		return 0, nil
	}
	return e.from.Read(to)
}

// A reader may give nothing for a while, and not for ever.
func TestAReaderThatGivesNothing(t *testing.T) {
	for count, due := range map[int]error{0: nil, 1: nil, mostEmptyReads: nil, mostEmptyReads + 1: io.ErrNoProgress} {
		there, err := newFrames(&emptyReads{count, strings.NewReader("abc")}).want(3)
		if !errors.Is(err, due) || err == nil && string(there) != "abc" {
			t.Errorf("nothing for %d times: %q, %v", count, there, err)
		}
	}
	all := newFrames(io.MultiReader(&emptyReads{mostEmptyReads, strings.NewReader("a")}, &emptyReads{mostEmptyReads, strings.NewReader("b")}))
	if there, err := all.want(2); err != nil || string(there) != "ab" {
		t.Errorf("%q, %v", there, err)
	}
}

var errDisk = errors.New("the disk is out of order")

// readPacked reads what is unzipped of a part, and gives its lines.
func readPacked(from io.Reader) (lines []Line, err error) {
	read, err := newPacked(from)
	if err != nil {
		return nil, err
	}
	var head Head
	for err = read.readHead(&head); err == nil; {
		var line Line
		if line, err = read.readLine(); err == nil {
			lines = append(lines, line)
		}
	}
	if err == io.EOF {
		return lines, nil
	}
	return lines, read.why(err)
}

// A disk that fails at a byte of a part is told as that, wherever it fails, and no line is told that isn't there.
func TestADiskThatFailsAtAByte(t *testing.T) {
	text := unzipped(t, aPart().written(t))
	due, err := readPacked(iotest.OneByteReader(bytes.NewReader(text)))
	if err != nil || len(due) != len(aPart().lines) {
		t.Fatalf("%d lines, %v", len(due), err)
	}
	for end := 0; end < len(text); end += 7 {
		lines, err := readPacked(io.MultiReader(bytes.NewReader(text[:end]), iotest.ErrReader(errDisk)))
		if !errors.Is(err, errDisk) || err.Error() != "it can't be read: "+errDisk.Error() || len(lines) > 0 && !reflect.DeepEqual(lines, due[:len(lines)]) {
			t.Errorf("at byte %d of %d: %d lines, %v", end, len(text), len(lines), err)
		}
	}
	odd := string(text[:len(text)/2]) + frame('X', 1, "x") + strings.Repeat("x", 2*bytesOfBuffer) // it fails behind what no part has
	if _, err := readPacked(io.MultiReader(strings.NewReader(odd), iotest.ErrReader(errDisk))); !errors.Is(err, errDisk) {
		t.Error(err)
	}
	for _, written := range [][]byte{aPart().inLines(t), aPart().written(t)} {
		for end := 0; end < len(written); end += 11 {
			read, err := NewReader(io.MultiReader(bytes.NewReader(written[:end]), iotest.ErrReader(errDisk)))
			for err == nil {
				_, err = read.Next()
			}
			if !errors.Is(err, errDisk) {
				t.Errorf("at byte %d of %d: %v", end, len(written), err)
			}
		}
	}
}

// fullDisk has room for so many bytes.
type fullDisk struct {
	room  int
	taken bytes.Buffer
}

func (f *fullDisk) Write(data []byte) (int, error) {
	if len(data) <= f.room {
		f.room -= len(data)
		return f.taken.Write(data)
	}
	count, _ := f.taken.Write(data[:f.room])
	f.room = 0
	return count, errDisk
}

// A disk without room for all of a part is told at the latest at its end; and while there is much to write, soon, and again and again from then on.
func TestADiskWithoutRoomForAPart(t *testing.T) {
	random, whole := rand.New(rand.NewSource(1)), aPart()
	for _, isLarge := range []bool{false, true} {
		lines := whole.lines
		if isLarge {
			for count := 0; count < 150; count++ {
				lines = append(lines[:len(lines):len(lines)], Line{Name: &Name{Name: Bytes(fmt.Sprint(count)), Out: []LeftOut{{Kind: Special, Why: randomText(random, 2000)}}}})
			}
		}
		for room, isFull := 0, true; isFull; room += 1 + room {
			disk, failed := &fullDisk{room: room}, false
			to, err := NewWriter(disk, whole.head)
			failed = err != nil
			for at := 0; at < len(lines) && to != nil; at++ {
				err := to.Take(lines[at])
				if failed && err == nil {
					t.Fatalf("line %d is taken behind one that wasn't, with room for %d bytes", at, room)
				}
				failed = failed || err != nil
			}
			if isLarge && !failed && room < 100000 {
				t.Errorf("%d lines are taken with room for %d bytes", len(lines), room)
			}
			if err == nil {
				err = to.Close()
			}
			isFull = err != nil
			if _, read, err := readAll(disk.taken.Bytes()); !isFull && !isLarge && (err != nil || len(read) != len(lines)) || isFull && err == nil {
				t.Errorf("with room for %d bytes: %d lines, %v", room, len(read), err)
			}
		}
	}
}

func randomText(random *rand.Rand, length int) string {
	text := make([]byte, length)
	for place := range text {
		text[place] = byte(' ' + random.Intn(90))
	}
	return string(text)
}

// A name that takes just as much as a line may have stands there; of one that takes a byte more it is told that it is left out. So much is also read.
func TestLinesThatAreJustTooLong(t *testing.T) {
	of := func(length int) *Name {
		return &Name{Name: "a", Out: []LeftOut{{Kind: Special, Why: strings.Repeat("x", length)}}}
	}
	within := 1 << 19
	room := within + mostLineBytes - len(appendName(nil, of(within))) // the length of its length changes by nothing there
	for more, isLeft := range map[int]bool{-1: false, 0: false, 1: true} {
		whole := aPart()
		whole.lines = []Line{{Begin: &Begin{"docs"}}, {Name: of(room + more)}, {End: &End{Folder: "docs", Names: 1, Max: 9, Temporary: &Count{}, Linked: &Count{}}}, {Begin: &Begin{"pics"}},
			{End: &End{Folder: "pics", Last: true}}}
		_, lines, err := readAll(whole.written(t))
		if err != nil || len(lines) != len(whole.lines) {
			t.Fatalf("%d bytes more: %d lines, %v", more, len(lines), err)
		}
		out := lines[1].Name.Out
		if (out[0].Kind == OddRecord) != isLeft || isLeft && out[0].Why != fmt.Sprintf("what this device has of it takes %d bytes in a part, which has at most %d of a name", mostLineBytes+1, mostLineBytes) {
			t.Errorf("%d bytes more: %.100s", more, out[0].Why)
		}
	}
}
