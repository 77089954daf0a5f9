package part

import (
	"bytes"
	"compress/gzip"
	"crypto/sha256"
	"encoding/binary"
	"encoding/json"
	"errors"
	"fmt"
	"io"
	"math"
	"math/rand"
	"reflect"
	"runtime"
	"strings"
	"testing"

	"github.com/syncthing/syncthing/lib/protocol"
)

// unzipped gives what is compressed.
func unzipped(t testing.TB, data []byte) []byte {
	from, err := gzip.NewReader(bytes.NewReader(data))
	if err != nil {
		t.Fatal(err)
	}
	text, err := io.ReadAll(from)
	if err != nil {
		t.Fatal(err)
	}
	return text
}

// A part is the same in both encodings.
func TestBothEncodings(t *testing.T) {
	for why, change := range map[string]func(*aWhole){"of a stopped device": func(*aWhole) {}, "of a look": looking(lookID)} {
		whole := aPart()
		change(whole)
		lines, packed := whole.inLines(t), whole.written(t)
		first, due, err := readAll(lines)
		if err != nil {
			t.Fatal(err)
		}
		second, found, err := readAll(packed)
		if err != nil || !reflect.DeepEqual(first.Head(), second.Head()) || !reflect.DeepEqual(due, found) {
			t.Errorf("%s: %v, %+v", why, err, found)
		}
	}
}

// someName gives a name with any values.
func someName(random *rand.Rand) *Name {
	number := func() int64 {
		return []int64{0, 1, -1, int64(random.Intn(1000)), random.Int63(), math.MinInt64, math.MaxInt64}[random.Intn(7)]
	}
	small := func() int { return []int{0, 1, 4, -1, random.Intn(1 << 30), math.MinInt32}[random.Intn(6)] }
	words := func() string {
		return []string{"", "a", "é\n", "\x00", strings.Repeat("x", random.Intn(300))}[random.Intn(5)]
	}
	is := func() bool { return random.Intn(2) == 0 }
	hash := func() (made Hash) { random.Read(made[:]); return made }
	version := func() Version {
		made := Version{}
		for next := random.Intn(3); next > 0; next-- {
			made = append(made, [2]uint64{random.Uint64(), random.Uint64() >> random.Intn(64)})
		}
		return made
	}
	content := func() Content { return Content{Size: number(), BlockSize: number(), Hash: hash()} }
	record := func() *Record {
		made := &Record{Type: small(), ModifiedS: number(), ModifiedNs: small(), ModifiedBy: random.Uint64(), Version: version(), Sequence: number(), Deleted: is(), Invalid: is(), Target: words()}
		if is() {
			found := content()
			made.Content = &found
		}
		if bits := random.Uint32(); is() {
			made.Permissions = &bits
		}
		if local := version(); len(local) > 0 {
			made.Local = local
		}
		return made
	}
	differ := func() *Differ {
		made := &Differ{Count: number(), Ranges: [][2]int64{{number(), number()}, {number(), number()}}}
		if found := hash(); is() {
			made.First.Found = &found
		}
		return made
	}
	name := &Name{Name: Bytes(words() + "\xff"[:random.Intn(2)]), Receiving: words(), NotRead: is()}
	if is() {
		name.Own = record()
	}
	for next := random.Intn(3); next > 0; next-- {
		name.Views = append(name.Views, Seen{View: small(), Same: number()}, Seen{Record: record()})
	}
	if is() {
		name.Disk = &Node{Type: small(), ModifiedS: number(), ModifiedNs: small(), Size: number(), Target: words(), Permissions: random.Uint32(), Lost: words(), Unread: number(), Stamp: words(), Link: number()}
		for next := random.Intn(3); next > 0; next-- {
			name.Disk.Contents = append(name.Disk.Contents, content())
		}
		if is() {
			name.Disk.Differ = differ()
		}
	}
	for next := random.Intn(3); next > 0; next-- {
		name.Out = append(name.Out, LeftOut{Kind: words(), Why: words(), Bytes: number(), Below: is()})
	}
	if is() {
		name.Differ = differ()
	}
	for next := random.Intn(3); next > 0; next-- {
		name.Moved = append(name.Moved, words())
	}
	return name
}

// Whatever a name has, encoding 2 says it as JSON does.
func TestNamesInBothEncodings(t *testing.T) {
	random := rand.New(rand.NewSource(1))
	for round := 0; round < 5000; round++ {
		name, inLines := someName(random), &Name{}
		text, err := json.Marshal(name)
		if err == nil {
			err = json.Unmarshal(text, inLines)
		}
		packed, failed := new(unpacker).name(appendName(nil, name))
		if err != nil || failed != nil || !reflect.DeepEqual(packed, inLines) || !reflect.DeepEqual(packed, name) {
			t.Fatalf("%s\n%+v, %v, %v", text, packed, err, failed)
		}
	}
}

// A record is what Syncthing's own package reads as a FileInfo. 1.29 lets nobody else read one.
func TestARecordIsAFileInfo(t *testing.T) {
	bits := uint32(0o640)
	record := &Record{Type: 0, ModifiedS: 5, ModifiedNs: 6, ModifiedBy: 7, Version: Version{{7, 8}}, Sequence: 9, Invalid: true, Permissions: &bits,
		Content: &Content{Size: 300000, BlockSize: 1 << 17, Hash: Hash{1}}}
	var read protocol.FileInfo
	own, is := any(&read).(interface{ Unmarshal([]byte) error })
	if !is {
		t.Skip("this version doesn't read one by itself")
	}
	if err := own.Unmarshal(record.append(nil)); err != nil {
		t.Fatal(err)
	}
	told := fmt.Sprint(read.Type, read.ModifiedS, read.ModifiedNs, read.ModifiedBy, read.Version.Counters, read.Sequence, read.RawInvalid, read.Permissions, read.NoPermissions, read.Size, read.BlockSize())
	if due := fmt.Sprint(protocol.FileInfoTypeFile, 5, 6, protocol.ShortID(7), []protocol.Counter{{ID: 7, Value: 8}}, 9, true, bits, false, 300000, 1<<17); told != due {
		t.Errorf("%s, not %s", told, due)
	}
}

// A bit that flips in what is written is told as damage, wherever it is, and so is one that flips in what is compressed, unless it says nothing.
func TestADamagedBit(t *testing.T) {
	written := aPart().written(t)
	text := unzipped(t, written)
	for at := len(begin); at < len(text); at++ {
		flipped := append([]byte(nil), text...)
		flipped[at] ^= 1 << (at % 8)
		if _, _, err := readAll(zipped(string(flipped))); !errors.Is(err, errDamaged) && (at > len(begin)+1 || err == nil) {
			t.Fatalf("byte %d (%q): %v", at, text[at], err)
		}
	}
	_, due, _ := readAll(written)
	for at := range written {
		flipped := append([]byte(nil), written...)
		flipped[at] ^= 1 << (at % 8)
		_, lines, err := readAll(flipped)
		isTold := errors.Is(err, errDamaged) || errors.Is(err, errMiddle) || at < 140 && errors.Is(err, ErrNone)
		if !isTold && (err != nil || !reflect.DeepEqual(lines, due)) {
			t.Errorf("byte %d: %v", at, err)
		}
	}
}

// What is cut off is told as that, whether its machine ended, or what it wrote did.
func TestAPackedPartThatIsCutOff(t *testing.T) {
	written := aPart().written(t)
	text := unzipped(t, written)
	for end := 20; end < len(written); end++ {
		if _, _, err := readAll(written[:end]); !errors.Is(err, errMiddle) {
			t.Errorf("%d of %d bytes: %v", end, len(written), err)
		}
	}
	for end := len(begin) + 2; end < len(text); end++ {
		if _, _, err := readAll(zipped(string(text[:end]))); !errors.Is(err, errMiddle) && !errors.Is(err, errDamaged) {
			t.Errorf("%d of %d bytes of text: %v", end, len(text), err)
		}
	}
	if _, _, err := readAll(zipped(string(text) + "x")); !errors.Is(err, errDamaged) {
		t.Errorf("more behind the end: %v", err)
	}
}

// frame gives a frame of any length.
func frame(kind byte, length uint64, text string) string {
	return string(binary.AppendUvarint([]byte{kind}, length)) + text
}

// sealed gives a part with this text, and its sum.
func sealed(text string) []byte {
	sum := sha256.Sum256([]byte(text))
	return zipped(text + string(sum[:]))
}

// What is wrong with a part whose bytes are as they were written is told as what it is.
func TestWhatIsWrongWithAPackedPart(t *testing.T) {
	text := string(unzipped(t, aPart().written(t)))
	start := begin + "2\n"
	length, digits := binary.Uvarint([]byte(text[len(start)+1:]))
	head := text[:len(start)+1+digits+int(length)]
	docs := frame(frameOfBegin, 17, `{"folder":"docs"}`)
	long := strings.Repeat("\x2a\x00", mostOfAList+1)
	for content, told := range map[string]string{
		begin + "3\n" + head[len(start):]:          "another encoding",
		strings.Replace(text, "syncthing", "x", 1): "it doesn't begin as one",
		start + docs:                                                                          "it doesn't begin with a head",
		start + frame(frameOfHead, 1, "x"):                                                    "invalid character",
		start + frame(frameOfHead, mostHeadBytes+1, ""):                                       "it has over 16777216 bytes",
		start + frame(frameOfHead, math.MaxUint64, ""):                                        "it has over 16777216 bytes",
		head + "N" + strings.Repeat("\xff", 11):                                               "its length is none",
		head + docs + frame(frameOfName, mostLineBytes+1, "x"):                                "line 3 of the part: it has over 1048576 bytes",
		head + docs + frame('X', 1, "x"):                                                      "it is of the kind 'X'",
		head + docs + frame(frameOfName, 1, "\xff"):                                           "line 3 of the part: unexpected EOF",
		head + docs + frame(frameOfName, 4, "\x0a\x01a\x12"):                                  "line 3 of the part: unexpected EOF",
		head + docs + frame(frameOfName, 5, "\x32\x03\xff\xff\xff"):                           "a text of it isn't UTF-8",
		head + docs + frame(frameOfName, 4, "\x3a\x02\x1a\x00"):                               "a hash of it has 0 bytes",
		head + docs + frame(frameOfName, uint64(len(long)), long):                             "it has a list of over 16384 items",
		head + docs + frame(frameOfName, 3, "\x0a\x01a") + frame(frameOfName, 3, "\x0a\x01a"): "isn't in its place",
		head + docs + frame(frameOfTrailer, 0, ""):                                            "the part is damaged",
		head + frame(frameOfTrailer, 0, ""):                                                   "the part ends in the middle",
	} {
		if _, _, err := readAll(sealed(content)); err == nil || !strings.Contains(err.Error(), told) {
			t.Errorf("%.80q: %v, and not: %s", content[len(content)*3/4:], err, told)
		}
	}
}

// allocated gives how many bytes were taken in memory up to now.
func allocated() uint64 {
	var stats runtime.MemStats
	runtime.ReadMemStats(&stats)
	return stats.TotalAlloc
}

// What unpacks to very much takes no memory by what it says of its lengths, and isn't read without an end.
func TestWhatUnpacksToVeryMuch(t *testing.T) {
	start := begin + "2\n"
	for why, content := range map[string]string{"a head that isn't there": frame(frameOfHead, mostHeadBytes, "{"), "lengths": frame(frameOfName, mostLineBytes, "")} {
		data := zipped(start + content)
		before := allocated()
		if _, _, err := readAll(data); err == nil || allocated()-before > 2<<20 {
			t.Errorf("%s: %v, %d bytes", why, err, allocated()-before)
		}
	}
	var bomb bytes.Buffer
	to, _ := gzip.NewWriterLevel(&bomb, gzip.BestSpeed)
	io.WriteString(to, start)
	for zeros, next := make([]byte, 1<<20), 0; next < mostOfRest/3*4>>20; next++ {
		to.Write(zeros)
	}
	to.Close()
	from, before := bytes.NewReader(bomb.Bytes()), allocated()
	if _, err := NewReader(from); err == nil || from.Len() < bomb.Len()/5 || allocated()-before > 2<<20 {
		t.Errorf("%v, %d of %d bytes weren't read, %d were taken", err, from.Len(), bomb.Len(), allocated()-before)
	}
}

// Of two nodes of a name the second one counts, whole.
func TestALaterNodeIsWhole(t *testing.T) {
	reading, to, later := &unpacker{}, &room{}, Node{Type: 1, Target: "b"}
	reading.node((&Node{Size: 5, Lost: "lost", Contents: []Content{{Size: 5}}}).append(nil), to)
	if node := reading.node(later.append(nil), to); !reflect.DeepEqual(*node, later) || reading.err != nil {
		t.Errorf("%+v, %v", node, reading.err)
	}
}
