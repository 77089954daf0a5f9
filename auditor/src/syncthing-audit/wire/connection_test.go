package wire

import (
	"context"
	"encoding/binary"
	"errors"
	"os"
	"path/filepath"
	"reflect"
	"strings"
	"testing"
	"time"

	"github.com/syncthing/syncthing/lib/protocol"
	"syncthing-audit/message"
	"syncthing-audit/part"
	"syncthing-audit/request"
)

// dial connects to a fake device for the folder 'docs'.
func dial(o *Observer, f *fake, kept *Index, limits Limits) (*Connection, error) {
	keeper := func(string) (*Index, error) { return kept, nil }
	if kept == nil {
		keeper = nil
	}
	f.settle()
	return o.Dial(context.Background(), f.listener.Addr().String(), f.id, Look{Folders: []string{"docs"}, Kept: keeper}, limits)
}

func TestIndex(t *testing.T) {
	observer := newObserver(t)
	answered := make(chan []byte, 1)
	device := newFake(t, func(f *fake) {
		f.hello()
		f.write(kindClusterConfig, f.config("docs", observer.ID, 42, 4), false)
		_, text, _ := readFrame(f.stream, 1<<20, func() {})
		answered <- text
		f.write(kindIndex, indexOf("other", file{name: "elsewhere", sequence: 9}), false)
		f.write(kindIndex, indexOf("docs", file{name: "a", data: strings.Repeat("a", 1000), sequence: 1}, file{name: "b", data: "b", sequence: 2}), true)
		f.write(kindPing, nil, false)
		f.write(kind(77), []byte("what a later version may send"), false)
		f.write(kindIndexUpdate, indexOf("docs", file{name: "b", deleted: true, sequence: 3}, file{name: "c", sequence: 4}), false)
		f.serve()
	})
	connection, err := dial(observer, device, nil, short())
	if err != nil {
		t.Fatal(err)
	}
	defer connection.Close()
	index, err := connection.Folders[0].Index(context.Background())
	if err != nil {
		t.Fatal(err)
	}
	if count, err := index.Count(); err != nil || index.ID != 42 || index.Highest != 4 || count != 3 {
		t.Errorf("%d, %d, %d names, %v", index.ID, index.Highest, count, err)
	}
	if a, b := recordIn(t, index, "a"), recordIn(t, index, "b"); a.Content.Size != 1000 || !b.Deleted || b.Sequence != 3 {
		t.Errorf("%v %v", a, b)
	}
	if known, is := connection.Folders[0].Of(protocol.DeviceID{1}); !is || known.IndexID != 99 || known.Sequence != 5 {
		t.Errorf("of the other device: %v", known)
	}
	checkAnswer(t, observer, device, <-answered, 0, 0)
}

// recordIn gives the record of a name in an index.
func recordIn(t *testing.T, index *Index, name string) *part.Record {
	t.Helper()
	entry, is, err := index.Get(name)
	if err != nil || !is || entry.Record == nil {
		t.Fatal(name, entry, is, err)
	}
	return entry.Record
}

// checkAnswer checks that a ClusterConfig names the one folder with the two devices, and nothing that a device would take over.
func checkAnswer(t *testing.T, observer *Observer, device *fake, text []byte, id uint64, sequence int64) {
	t.Helper()
	said, err := foldersIn(text, []string{"docs"}, &Usual)
	if err != nil || len(said) != 1 {
		t.Fatal(said, err)
	}
	folder := said[0]
	want := &Folder{ID: "docs", Devices: []Sharing{{Device: device.id, IndexID: id, Sequence: sequence},
		{Device: observer.ID, IndexID: observer.indexID("docs")}}}
	if !reflect.DeepEqual(folder, want) {
		t.Errorf("%+v in place of %+v", folder, want)
	}
	folders, hearsOfTemporary := 0, true
	_ = message.Each(text, func(folder message.Field) error {
		folders++
		return message.Each(folder.Text, func(field message.Field) error {
			if field.Number == folderNoTemporary && field.Value == 1 {
				hearsOfTemporary = false
			}
			return nil
		})
	})
	if folders != 1 || hearsOfTemporary {
		t.Errorf("%d folders in place of one, of temporary files: %v", folders, hearsOfTemporary)
	}
}

// Of an index that was kept a device is told, so that it sends what came since; one that isn't the same, or that goes further than the device's
// own, is dropped.
func TestDeltas(t *testing.T) {
	cases := []struct {
		why       string
		id        uint64
		sequence  uint64
		announced uint64
		highest   int64
		names     int
	}{
		{"what came since", 42, 3, 42, 2, 2},
		{"another index", 43, 3, 0, 0, 1},
		{"a device that went back", 42, 1, 0, 0, 1},
	}
	for _, row := range cases {
		observer := newObserver(t)
		answered := make(chan []byte, 1)
		device := newFake(t, func(f *fake) {
			f.hello()
			f.write(kindClusterConfig, f.config("docs", observer.ID, row.id, row.sequence), false)
			_, text, _ := readFrame(f.stream, 1<<20, func() {})
			answered <- text
			f.write(kindIndexUpdate, indexOf("docs", file{name: "new", sequence: row.sequence}), false)
			f.serve()
		})
		kept := NewIndex(42)
		if err := (&taker{folder: "docs", limits: &Usual, spent: new(spent), index: kept}).take(indexOf("docs", file{name: "old", sequence: 2}), true); err != nil {
			t.Fatal(err)
		}
		connection, err := dial(observer, device, kept, short())
		if err != nil {
			t.Fatal(row.why, err)
		}
		index, err := connection.Folders[0].Index(context.Background())
		if err != nil {
			t.Fatal(row.why, err)
		}
		if count, err := index.Count(); err != nil || count != int64(row.names) || index.Highest != int64(row.sequence) {
			t.Errorf("%s: %d names, %v", row.why, count, err)
		}
		checkAnswer(t, observer, device, <-answered, row.announced, row.highest)
		connection.Close()
	}
}

// long gives messages that go over a limit, and what else a device may do amiss before an index.
func TestRefusals(t *testing.T) {
	observer := newObserver(t)
	good := func(f *fake) []byte { return f.config("docs", observer.ID, 42, 4) }
	first := func(body func(f *fake) []byte) func(*fake) {
		return func(f *fake) { f.hello(); f.write(kindClusterConfig, body(f), false); f.serve() }
	}
	then := func(what kind, body []byte) func(*fake) {
		return func(f *fake) {
			f.hello()
			f.write(kindClusterConfig, good(f), false)
			readFrame(f.stream, 1<<20, func() {})
			f.write(what, body, false)
			f.serve()
		}
	}
	raw := func(text []byte) func(*fake) {
		return func(f *fake) { f.hello(); f.stream.Write(text); f.serve() }
	}
	lz4Head := message.AppendNumber(message.AppendNumber(nil, headerType, 0), headerCompression, compressionLZ4)
	bomb := append(append([]byte{0, byte(len(lz4Head))}, lz4Head...), 0, 0, 0, 8, 0xff, 0xff, 0xff, 0xff, 1, 2, 3, 4)
	cases := []struct {
		why    string
		want   Refusal
		script func(*fake)
	}{
		{"no Syncthing", NotSyncthing, func(f *fake) { f.stream.Write([]byte("HTTP/1.1 400 Bad Request\r\n")) }},
		{"a long Hello", TooLong, func(f *fake) {
			f.stream.Write(append(binary.BigEndian.AppendUint32(nil, protocol.HelloMessageMagic), 0xff, 0xff))
		}},
		{"a long header", TooLong, raw([]byte{0xff, 0xff})},
		{"a long message", TooLong, raw([]byte{0, 0, 0x7f, 0xff, 0xff, 0xff})},
		{"a message that grows as it is decompressed", TooLong, raw(bomb)},
		{"a header that is cut", BadMessage, raw([]byte{0, 1, 8, 0, 0, 0, 0})},
		{"an index first", BadMessage, func(f *fake) { f.hello(); f.write(kindIndex, nil, false); f.serve() }},
		{"an end at once", Closed, func(f *fake) { f.hello() }},
		{"another folder", NotShared, first(func(f *fake) []byte { return f.config("photos", observer.ID, 42, 4) })},
		{"not with the observer", NotShared, first(func(f *fake) []byte { return f.config("docs", protocol.DeviceID{2}, 42, 4) })},
		{"paused", Paused, first(func(f *fake) []byte {
			return f.config("docs", observer.ID, 42, 4, func(b []byte) []byte { return message.AppendNumber(b, folderPaused, 1) })
		})},
		{"encrypted for the observer", EncryptedForObserver, first(func(f *fake) []byte {
			return f.config("docs", observer.ID, 42, 4, func(b []byte) []byte {
				return message.AppendText(message.AppendText(nil, folderDevice, message.AppendText(message.AppendText(nil, deviceID, observer.ID[:]), deviceToken, []byte("x"))), 1, b[2:6])
			})
		})},
		{"an id of two bytes", BadMessage, first(func(f *fake) []byte {
			return f.config("docs", observer.ID, 42, 4, func(b []byte) []byte {
				return message.AppendText(b, folderDevice, message.AppendText(nil, deviceID, []byte("ab")))
			})
		})},
		{"very many devices", TooManyDevices, first(func(f *fake) []byte {
			return f.config("docs", observer.ID, 42, 4, func(b []byte) []byte {
				for n := 0; n < 5000; n++ {
					b = message.AppendText(b, folderDevice, message.AppendText(nil, deviceID, observer.ID[:]))
				}
				return b
			})
		})},
		{"sequences that fall", SequenceFalls, then(kindIndex, indexOf("docs", file{name: "a", sequence: 2}, file{name: "b", sequence: 2}))},
		{"no sequence", SequenceFalls, then(kindIndex, indexOf("docs", file{name: "a"}))},
		{"a long name", NameTooLong, then(kindIndex, indexOf("docs", file{name: strings.Repeat("x", 40000), sequence: 1}))},
		{"an index that isn't whole", NotWhole, then(kindIndex, indexOf("docs", file{name: "a", sequence: 3}))},
		{"a record that is cut", BadMessage, then(kindIndex, message.AppendText(message.AppendText(nil, indexFolder, []byte("docs")), indexFile, []byte{0x0a, 9, 'a'}))},
		{"blocks without hashes", BadMessage, then(kindIndex, message.AppendText(message.AppendText(nil, indexFolder, []byte("docs")), indexFile,
			[]byte(strings.Repeat("\x82\x01\x00", 1000))))},
		{"a version of very many counters", BadMessage, then(kindIndex, message.AppendText(message.AppendText(nil, indexFolder, []byte("docs")), indexFile,
			message.AppendText(nil, message.FileVersion, []byte(strings.Repeat("\x0a\x00", 5000)))))},
		{"an end before the index", Closed, then(kindClose, nil)},
	}
	for _, row := range cases {
		device, limits := newFake(t, row.script), short()
		if row.want == NotWhole {
			limits.IndexQuiet = 300 * time.Millisecond
		}
		if got := refusalOf(observer, device, limits); got == nil || !errors.Is(got, row.want) {
			t.Errorf("%s: %v in place of %v", row.why, got, row.want)
		}
	}
}

// refusalOf gives why no index of a device is had.
func refusalOf(o *Observer, f *fake, limits Limits) error {
	connection, err := dial(o, f, nil, limits)
	if err != nil {
		return err
	}
	defer connection.Close()
	_, err = connection.Folders[0].Index(context.Background())
	return err
}

// A device that goes on with its index for ever is refused by the number of records and by their bytes, and a slow one by time.
func TestEndless(t *testing.T) {
	observer := newObserver(t)
	endless := func(f *fake) {
		f.hello()
		f.write(kindClusterConfig, f.config("docs", observer.ID, 42, 1<<60), false)
		for n := uint64(1); n < 10000; n++ {
			f.write(kindIndexUpdate, indexOf("docs", file{name: "a", sequence: n}), false)
		}
	}
	slow := func(f *fake) {
		f.hello()
		f.write(kindClusterConfig, f.config("docs", observer.ID, 42, 4), false)
		f.stream.Write([]byte{0, 0, 0})
		f.serve()
	}
	records, bytes, time1 := short(), short(), short()
	records.Records, bytes.Index, time1.Frame = 100, 5000, 100*time.Millisecond
	for _, row := range []struct {
		want   Refusal
		limits Limits
		script func(*fake)
	}{{TooManyRecords, records, endless}, {TooLarge, bytes, endless}, {TooLate, time1, slow}} {
		if got := refusalOf(observer, newFake(t, row.script), row.limits); !errors.Is(got, row.want) {
			t.Errorf("%v in place of %v", got, row.want)
		}
	}
	err := error(NotSyncthing)
	for handshake := time.Second; errors.Is(err, NotSyncthing) && handshake < time.Minute; handshake *= 4 { // on a busy machine TLS may take as long
		err = refusalOf(observer, newFake(t, func(f *fake) { f.hello(); f.serve() }), Limits{Handshake: handshake, Hello: 1000})
	}
	if !errors.Is(err, TooLate) {
		t.Errorf("a device that says nothing: %v", err)
	}
}

// A request of the device is answered with 'no such file', and counted.
func TestAskedFor(t *testing.T) {
	observer := newObserver(t)
	answered := make(chan []byte, 1)
	device := newFake(t, func(f *fake) {
		f.hello()
		f.write(kindClusterConfig, f.config("docs", observer.ID, 42, 0), false)
		readFrame(f.stream, 1<<20, func() {})
		f.write(kindRequest, request.ForBlock("a", 0, 5).Message(3, "docs"), false)
		_, text, _ := readFrame(f.stream, 1<<20, func() {})
		answered <- text
		f.serve()
	})
	connection, err := dial(observer, device, nil, short())
	if err != nil {
		t.Fatal(err)
	}
	defer connection.Close()
	if text := <-answered; string(text) != "\x08\x03\x18\x02" || connection.Asked() != 1 {
		t.Errorf("%q, %d", text, connection.Asked())
	}
}

func TestAnotherDevice(t *testing.T) {
	observer := newObserver(t)
	device := newFake(t, func(f *fake) { f.hello() })
	device.id = protocol.DeviceID{5}
	if _, err := dial(observer, device, nil, short()); !errors.Is(err, AnotherDevice) {
		t.Error(err)
	}
}

func TestIdentity(t *testing.T) {
	room := t.TempDir()
	directory := filepath.Join(room, "observer")
	first, err := Create(directory)
	if err != nil {
		t.Fatal(err)
	}
	if again, err := Create(directory); err != nil || again.ID != first.ID {
		t.Errorf("another id: %v", err)
	}
	for name, want := range map[string]os.FileMode{"": 0o700, nameOfKey: 0o600} {
		if about, err := os.Stat(filepath.Join(directory, name)); err != nil || about.Mode().Perm() != want {
			t.Errorf("%s: %v, %v", name, about.Mode(), err)
		}
	}
	if left, err := os.ReadDir(directory); err != nil || len(left) != 2 {
		t.Errorf("%v in the directory, %v", left, err)
	}
	if err := os.Chmod(directory, 0o750); err != nil {
		t.Fatal(err)
	}
	for _, open := range []func(string) (*Observer, error){Create, Open} {
		if _, err := open(directory); !errors.Is(err, BadDirectory) {
			t.Errorf("a directory that others may enter: %v", err)
		}
	}
	broken := filepath.Join(room, "broken")
	if err := os.Mkdir(broken, 0o700); err != nil {
		t.Fatal(err)
	}
	if err := os.WriteFile(filepath.Join(broken, nameOfCertificate), []byte("?"), 0o600); err != nil {
		t.Fatal(err)
	}
	if _, err := Create(broken); !errors.Is(err, BadDirectory) {
		t.Errorf("a certificate that can't be read: %v", err)
	}
	if text, _ := os.ReadFile(filepath.Join(broken, nameOfCertificate)); string(text) != "?" {
		t.Error("it was replaced")
	}
}
