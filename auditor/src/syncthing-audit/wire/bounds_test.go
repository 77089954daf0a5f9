package wire

import (
	"bytes"
	"encoding/binary"
	"errors"
	"fmt"
	"io"
	"net"
	"os"
	"path/filepath"
	"reflect"
	"strings"
	"testing"

	"github.com/pierrec/lz4"
	"github.com/syncthing/syncthing/lib/protocol"
	"google.golang.org/protobuf/encoding/protowire"
	"syncthing-audit/message"
)

// framed gives a message with a header, as it is sent.
func framed(header []byte, length uint32, body []byte) []byte {
	text := binary.BigEndian.AppendUint16(nil, uint16(len(header)))
	text = binary.BigEndian.AppendUint32(append(text, header...), length)
	return append(text, body...)
}

// A message is read up to as many bytes as are taken, compressed or not, and refused by one more; what ends early is told as that.
func TestBoundsOfAMessage(t *testing.T) {
	const most = 100
	zeros := make([]byte, most+1)
	ping, packed := message.AppendNumber(nil, headerType, uint64(kindPing)), message.AppendNumber(message.AppendNumber(nil, headerType, uint64(kindIndex)), headerCompression, compressionLZ4)
	compressed := func(length int, said uint32) []byte {
		room := make([]byte, lz4.CompressBlockBound(length))
		size, err := lz4.CompressBlock(zeros[:length], room, nil)
		if err != nil || size == 0 {
			t.Fatal(size, err)
		}
		body := append(binary.BigEndian.AppendUint32(nil, said), room[:size]...)
		return framed(packed, uint32(len(body)), body)
	}
	padded := func(length int) []byte {
		text := message.AppendText(ping, 9, make([]byte, length-len(ping)-3)) // a field that isn't known, with a length of two bytes
		if len(text) != length {
			t.Fatal(len(text), length)
		}
		return text
	}
	for why, row := range map[string]struct {
		text   []byte
		length int // of the message; where it is read
		err    error
	}{
		"nothing":                        {framed(ping, 0, nil), 0, nil},
		"as much as is taken":            {framed(ping, most, zeros[:most]), most, nil},
		"one byte more":                  {framed(ping, most+1, zeros), 0, TooLong},
		"the longest header":             {framed(padded(1024), 0, nil), 0, nil},
		"a longer header":                {framed(padded(1025), 0, nil), 0, TooLong},
		"nothing, compressed":            {framed(packed, 4, zeros[:4]), 0, nil},
		"a header that is none":          {framed([]byte{0xff}, 0, nil), 0, BadMessage},
		"compressed in an unknown way":   {framed(message.AppendNumber(ping, headerCompression, 2), 0, nil), 0, BadMessage},
		"compressed":                     {compressed(most, most), most, nil},
		"compressed, one byte more":      {compressed(most+1, most+1), 0, TooLong},
		"compressed, said to be longer":  {compressed(most-1, most), 0, BadMessage},
		"compressed, said to be shorter": {compressed(most, most-1), 0, BadMessage},
		"compressed, without a length":   {framed(packed, 3, zeros[:3]), 0, BadMessage},
	} {
		begun := 0
		what, body, err := readFrame(bytes.NewReader(row.text), most, func() { begun++ })
		if begun != 1 || !errors.Is(err, row.err) || err == nil && (len(body) != row.length || what != kindPing && what != kindIndex) {
			t.Errorf("%s: kind %d, %d bytes, %v", why, what, len(body), err)
		}
		if row.err == nil {
			for end := 0; end < len(row.text); end++ {
				if _, _, err := readFrame(bytes.NewReader(row.text[:end]), most, func() {}); err != io.EOF && err != io.ErrUnexpectedEOF {
					t.Errorf("%s: %d of %d bytes: %v", why, end, len(row.text), err)
				}
			}
		}
	}
}

// A Hello is read up to as many bytes as are taken, with its three texts; anything else isn't one of Syncthing's.
func TestBoundsOfAHello(t *testing.T) {
	said := func(magic uint32, body []byte) []byte {
		head := binary.BigEndian.AppendUint16(binary.BigEndian.AppendUint32(nil, magic), uint16(len(body)))
		return append(head, body...)
	}
	body := message.AppendText(message.AppendText(message.AppendText(nil, helloName, []byte("laptop")), helloClient, []byte("syncthing")), helloVersion, []byte("v1.29.5"))
	whole := said(protocol.HelloMessageMagic, body)
	if read, err := readHello(bytes.NewReader(whole), len(body)); err != nil || read != (Hello{"laptop", "syncthing", "v1.29.5"}) {
		t.Errorf("%+v, %v", read, err)
	}
	if _, err := readHello(bytes.NewReader(whole), len(body)-1); !errors.Is(err, TooLong) {
		t.Error(err)
	}
	if _, err := readHello(bytes.NewReader(said(1, body)), 1000); !errors.Is(err, NotSyncthing) {
		t.Error(err)
	}
	if _, err := readHello(bytes.NewReader(said(protocol.HelloMessageMagic, []byte{0xff})), 1000); !errors.Is(err, BadMessage) {
		t.Error(err)
	}
	for end := range whole {
		if _, err := readHello(bytes.NewReader(whole[:end]), 1000); !errors.Is(err, NotSyncthing) {
			t.Errorf("%d bytes: %v", end, err)
		}
	}
	var told bytes.Buffer
	if err := writeHello(&told); err != nil {
		t.Fatal(err)
	}
	if read, err := readHello(&told, 1000); err != nil || read != (Hello{Client: "syncthing-audit"}) {
		t.Errorf("%+v, %v", read, err)
	}
}

// What a device says of its folders is read up to each limit, of those that are asked for, each once, with all that it says.
func TestBoundsOfAConfiguration(t *testing.T) {
	id, last := protocol.DeviceID{7}, protocol.DeviceID{7, 4}
	device := func(sequence uint64, token string) []byte {
		of := id
		if sequence == 1 || sequence == 4 {
			of = last
		} else if sequence == 2 {
			of[2] = 2
		}
		text := message.AppendText(message.AppendText(nil, deviceID, of[:]), deviceName, []byte("nas"))
		return message.AppendText(message.AppendNumber(message.AppendNumber(text, deviceSequence, sequence), deviceIndexID, 4), deviceToken, []byte(token))
	}
	folder := func(id string, more ...[]byte) []byte {
		text := message.AppendText(message.AppendText(nil, folderID, []byte(id)), folderLabel, []byte("Label"))
		for _, device := range more {
			text = message.AppendText(text, folderDevice, device)
		}
		return text
	}
	config := func(folders ...[]byte) (text []byte) {
		for _, folder := range folders {
			text = message.AppendText(text, configFolder, folder)
		}
		return text
	}
	limits := &Limits{Folders: 2, Devices: 2}
	long := strings.Repeat("f", 1024)
	for why, row := range map[string]struct {
		text  []byte
		asked []string
		ids   string
		err   error
	}{
		"two":                    {config(folder("a"), folder("b")), nil, "a b", nil},
		"three":                  {config(folder("a"), folder("b"), folder("c")), nil, "", TooManyFolders},
		"two of three":           {config(folder("a"), folder("b"), folder("c")), []string{"c", "a"}, "a c", nil},
		"one twice":              {config(folder("a"), folder("a"), folder("b")), nil, "a b", nil},
		"none of those":          {config(folder("a")), []string{"b"}, "", nil},
		"the longest id":         {config(folder(long)), nil, long, nil},
		"a longer id":            {config(folder(long + "f")), nil, "", BadMessage},
		"an id with a zero byte": {config(folder("a\x00")), nil, "", BadMessage},
		"a zero byte as an id":   {config(folder("\x00")), nil, "", BadMessage},
		"two devices":            {config(folder("a", device(0, ""), device(1, ""))), nil, "a", nil},
		"one of them twice":      {config(folder("a", device(0, ""), device(0, ""))), nil, "a", nil},
		"three devices":          {config(folder("a", device(0, ""), device(1, ""), device(2, ""))), nil, "", TooManyDevices},
		"a sequence below 0":     {config(folder("a", device(1<<63, ""))), nil, "", BadMessage},
		"no device's id":         {config(folder("a", message.AppendText(nil, deviceID, id[:31]))), nil, "", BadMessage},
		"no message":             {[]byte{0xff}, nil, "", BadMessage},
	} {
		read, err := foldersIn(row.text, row.asked, limits)
		ids := []string{}
		for _, folder := range read {
			ids = append(ids, folder.ID)
		}
		if !errors.Is(err, row.err) || err == nil && strings.Join(ids, " ") != row.ids {
			t.Errorf("%s: %.30q, %v", why, ids, err)
		}
	}
	for flag, is := range map[protowire.Number]func(*Folder) bool{folderType: func(f *Folder) bool { return f.SendOnly }, folderIgnoresPermissions: func(f *Folder) bool { return f.IgnoresPermissions },
		folderPaused: func(f *Folder) bool { return f.Paused }} {
		for value := uint64(0); value < 2; value++ {
			read, err := folderOf(message.AppendNumber(folder("a", device(3, "token"), device(4, "")), flag, value), 9)
			if err != nil || is(read) != (value == 1) || read.Label != "Label" || len(read.Devices) != 2 || read.Devices[0] != (Sharing{id, "nas", 4, 3, true}) || read.Devices[1] != (Sharing{last, "nas", 4, 4, false}) {
				t.Errorf("%d, %d: %+v, %v", flag, value, read, err)
			}
			if flags := map[bool]int{}; err == nil {
				for _, flag := range []bool{read.SendOnly, read.IgnoresPermissions, read.Paused} {
					flags[flag]++
				}
				if flags[true] != int(value) {
					t.Errorf("%d: %+v", flag, read)
				}
			}
		}
	}
	for value, due := range map[uint64]Folder{0: {}, 1: {SendOnly: true}, 2: {ReceiveOnly: true}, 3: {}, 4: {OtherType: true}, 1 << 40: {OtherType: true}} {
		read, err := folderOf(message.AppendNumber(nil, folderType, value), 9)
		if err != nil || !reflect.DeepEqual(*read, due) {
			t.Errorf("type %d: %+v, %v", value, read, err)
		}
	}
	if read, err := folderOf(folder("a", device(0, ""), device(0, "")), 9); err != nil || len(read.Devices) != 1 {
		t.Errorf("a device twice: %+v, %v", read, err)
	}
	agreed := &Folder{Devices: []Sharing{{Device: id, IndexID: 4}}}
	if sharing, is := agreed.Of(id); !is || sharing.IndexID != 4 {
		t.Errorf("%+v", sharing)
	}
	if sharing, is := agreed.Of(protocol.DeviceID{8}); is || sharing != (Sharing{}) {
		t.Errorf("%+v", sharing)
	}
}

// A record has as many counters and as long a name as are taken, and no more; blocks without hashes aren't read without an end.
func TestBoundsOfARecord(t *testing.T) {
	name := func(length int) []byte {
		return message.AppendText(nil, message.FileName, bytes.Repeat([]byte{'n'}, length))
	}
	counters := func(count int) []byte {
		version := []byte{}
		for number := 0; number < count; number++ {
			version = message.AppendText(version, message.VersionCounter, message.AppendNumber(message.AppendNumber(nil, message.CounterID, uint64(number+1)), message.CounterValue, 7))
		}
		return message.AppendText(nil, message.FileVersion, version)
	}
	blocks := func(count int) (text []byte) {
		for number := 0; number < count; number++ {
			text = message.AppendText(text, message.FileBlock, message.AppendNumber(nil, message.BlockSize, 1))
		}
		return text
	}
	none, errAny := []byte{0xff}, errors.New("any")
	for why, row := range map[string]struct {
		text []byte
		err  error
	}{"the longest name": {name(9), nil}, "a longer one": {name(10), NameTooLong}, "as many counters": {counters(4096), nil}, "one more": {counters(4097), BadMessage},
		"a version that is none": {message.AppendText(nil, message.FileVersion, none), errAny}, "a block that is none": {message.AppendText(nil, message.FileBlock, none), errAny},
		"a counter that is none": {message.AppendText(nil, message.FileVersion, message.AppendText(nil, message.VersionCounter, none)), errAny}, "a record that is none": {none, errAny},
		"a block": {blocks(1), nil}, "many blocks of nothing": {blocks(1000), BadMessage}} {
		read, err := entryIn(row.text, 9)
		if row.err == errAny && err == nil || row.err != errAny && !errors.Is(err, row.err) {
			t.Errorf("%s: %v", why, err)
		}
		if why == "as many counters" && (len(read.Version.Counters) != 4096 || read.Version.Counters[8] != (protocol.Counter{ID: 9, Value: 7})) {
			t.Errorf("%d counters", len(read.Version.Counters))
		}
	}
}

// The key of an observer is for its user alone: its id stays, and a directory that others may enter, or that is none, isn't used.
func TestWhoseKeyAnObserverHas(t *testing.T) {
	directory := filepath.Join(t.TempDir(), "observer")
	observer, err := Create(directory)
	if err != nil {
		t.Fatal(err)
	}
	for _, open := range []func(string) (*Observer, error){Create, Open} {
		if again, err := open(directory); err != nil || again.ID != observer.ID {
			t.Errorf("%v, %v", again, err)
		}
	}
	if first, other := observer.indexID("docs"), observer.indexID("pics"); first == other || first%2 != 1 || first != observer.indexID("docs") {
		t.Errorf("%d, %d", first, other)
	}
	if entries, err := os.ReadDir(directory); err != nil || len(entries) != 2 {
		t.Errorf("%v, %v", entries, err)
	}
	for _, mode := range []os.FileMode{0o710, 0o701, 0o777} {
		if err := os.Chmod(directory, mode); err != nil {
			t.Fatal(err)
		}
		for _, open := range []func(string) (*Observer, error){Create, Open} {
			if _, err := open(directory); !errors.Is(err, BadDirectory) || !strings.Contains(err.Error(), "others may enter "+directory) {
				t.Errorf("%o: %v", mode, err)
			}
		}
	}
	file := filepath.Join(t.TempDir(), "file")
	if err := os.WriteFile(file, nil, 0o600); err != nil {
		t.Fatal(err)
	}
	for path, told := range map[string]string{file: file + " is no directory", filepath.Join(file, "x"): "not a directory", filepath.Join(directory, "none", "x"): "no such file"} {
		if _, err := Create(path); !errors.Is(err, BadDirectory) || !strings.Contains(err.Error(), told) {
			t.Errorf("%s: %v", path, err)
		}
	}
	if os.Geteuid() == 0 {
		if err := os.Chmod(directory, 0o700); err != nil {
			t.Fatal(err)
		}
		if err := os.Chown(directory, 1234, 0); err != nil {
			t.Fatal(err)
		}
		if _, err := Open(directory); !errors.Is(err, BadDirectory) || !strings.HasSuffix(err.Error(), "is another user's") {
			t.Error(err)
		}
	}
}

// Why a connection ended is a refusal: the one that there is, that it took too long, or that it is closed.
func TestWhyAConnectionEnded(t *testing.T) {
	for _, row := range []struct{ err, is error }{
		{nil, nil}, {fmt.Errorf("%w: x", TooLong), TooLong}, {os.ErrDeadlineExceeded, TooLate}, {&net.OpError{Op: "read", Err: os.ErrDeadlineExceeded}, TooLate}, {io.EOF, Closed}, {net.ErrClosed, Closed},
	} {
		if err := ended(row.err); (err == nil) != (row.is == nil) || row.is != nil && !errors.Is(err, row.is) {
			t.Errorf("%v: %v", row.err, err)
		}
	}
	if err := badly("its index", fmt.Errorf("%w: x", SequenceFalls)); !errors.Is(err, SequenceFalls) || errors.Is(err, BadMessage) {
		t.Error(err)
	}
	if err := badlyIf("its index", errors.New("x")); !errors.Is(err, BadMessage) || err.Error() != string(BadMessage)+": its index: x" || badlyIf("its index", nil) != nil {
		t.Error(err)
	}
}
