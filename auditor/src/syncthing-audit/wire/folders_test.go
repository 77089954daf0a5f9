package wire

import (
	"context"
	"errors"
	"fmt"
	"testing"

	"github.com/syncthing/syncthing/lib/protocol"
	"syncthing-audit/message"
)

// sharing gives what a device says of several folders: each of these with its index id and sequence, and what more is said of it.
func (f *fake) sharing(observer protocol.DeviceID, folders ...string) []byte {
	text := []byte{}
	for at, id := range folders {
		text = append(text, f.config(id, observer, uint64(at+40), 1)...)
	}
	return text
}

// connected connects for these folders to a device that says this of its own, and gives what the observer answered it.
func connected(t *testing.T, folders []string, config func(f *fake, observer protocol.DeviceID) []byte, messages ...[]byte) (*Connection, []byte, error) {
	t.Helper()
	observer := newObserver(t)
	answered := make(chan []byte, 1)
	device := newFake(t, func(f *fake) {
		f.hello()
		f.write(kindClusterConfig, config(f, observer.ID), false)
		_, text, _ := readFrame(f.stream, 1<<20, func() {})
		answered <- text
		for _, message := range messages {
			f.write(kindIndex, message, false)
		}
		f.serve()
	})
	connection, err := observer.Dial(context.Background(), device.listener.Addr().String(), device.id, Look{Folders: folders}, short())
	if err != nil {
		return nil, nil, err
	}
	t.Cleanup(connection.Close)
	return connection, <-answered, nil
}

// Those folders are observed that are asked for or, without any, all that the device shares with the observer. The others aren't answered, and it is
// told why. Each has its own index.
func TestSeveralFolders(t *testing.T) {
	config := func(f *fake, observer protocol.DeviceID) []byte {
		text := f.sharing(observer, "photos", "docs", "more")
		text = append(text, f.config("paused", observer, 50, 1, func(b []byte) []byte { return message.AppendNumber(b, folderPaused, 1) })...)
		text = append(text, f.config("odd", observer, 50, 1, func(b []byte) []byte { return message.AppendNumber(b, folderType, 9) })...)
		return append(text, f.config("docs", observer, 99, 1)...) // once more: the first word counts
	}
	for _, row := range []struct {
		asked, observed []string
		out             map[string]Refusal
	}{
		{[]string{"photos", "docs"}, []string{"docs", "photos"}, map[string]Refusal{}},
		{[]string{"photos", "none", "paused"}, []string{"photos"}, map[string]Refusal{"none": NotShared, "paused": Paused}},
		{nil, []string{"docs", "more", "photos"}, map[string]Refusal{"paused": Paused, "odd": OtherType, "other": NotShared}},
	} {
		indexes := [][]byte{}
		for _, id := range []string{"more", "photos", "docs"} {
			indexes = append(indexes, indexOf(id, file{name: "in " + id, sequence: 1}))
		}
		connection, answer, err := connected(t, row.asked, config, indexes...)
		if err != nil {
			t.Fatal(row.asked, err)
		}
		said, err := foldersIn(answer, nil, &Usual)
		if err != nil || len(said) != len(row.observed) || len(connection.Folders) != len(row.observed) || len(connection.Out) != len(row.out) {
			t.Fatalf("%v: %v is answered, %v is observed, %v isn't, %v", row.asked, said, connection.Folders, connection.Out, err)
		}
		for at, id := range row.observed {
			folder := connection.Folders[at]
			if said[at].ID != id || folder.ID != id || connection.Shared(id) != folder || len(said[at].Devices) != 2 {
				t.Errorf("%v: %s, %+v", row.asked, folder.ID, said[at])
			}
			index, err := folder.Index(context.Background())
			if err != nil {
				t.Fatal(id, err)
			}
			if count, err := index.Count(); err != nil || count != 1 || recordIn(t, index, "in "+id).Sequence != 1 || index.ID != map[string]uint64{"photos": 40, "docs": 41, "more": 42}[id] {
				t.Errorf("%s: %d names, index %d, %v", id, count, index.ID, err)
			}
		}
		for id, why := range row.out {
			if !errors.Is(connection.Out[id], why) || connection.Shared(id) != nil {
				t.Errorf("%v: %s: %v", row.asked, id, connection.Out[id])
			}
		}
	}
}

// Where no folder is observed the device isn't answered, and the error is the one that says most. A device of very many folders, or with an id that is
// none, is refused.
func TestNoFolder(t *testing.T) {
	pausing := func(f *fake, observer protocol.DeviceID) []byte {
		return f.config("docs", observer, 50, 1, func(b []byte) []byte { return message.AppendNumber(b, folderPaused, 1) })
	}
	many := func(f *fake, observer protocol.DeviceID) []byte {
		text := []byte{}
		for at := 0; at <= Usual.Folders; at++ {
			text = append(text, f.config(fmt.Sprint(at), observer, 1, 1)...)
		}
		return text
	}
	odd := func(id string) func(f *fake, observer protocol.DeviceID) []byte {
		return func(f *fake, observer protocol.DeviceID) []byte { return f.config(id, observer, 1, 1) }
	}
	for _, row := range []struct {
		asked  []string
		config func(f *fake, observer protocol.DeviceID) []byte
		want   Refusal
	}{
		{[]string{"a", "docs", "z"}, pausing, Paused}, {nil, pausing, Paused}, {[]string{"a"}, pausing, NotShared}, {nil, many, TooManyFolders},
		{nil, odd("a\x00b"), BadMessage}, {nil, odd(string(make([]byte, 1025))), BadMessage},
		{nil, func(*fake, protocol.DeviceID) []byte { return nil }, NotShared},
		{nil, func(f *fake, observer protocol.DeviceID) []byte {
			return f.config("docs", observer, 50, 1, func(b []byte) []byte {
				other := message.AppendText(message.AppendText(nil, deviceID, f.id[:]), deviceToken, make([]byte, 2049))
				return message.AppendText(b, folderDevice, other)
			})
		}, BadMessage},
	} {
		if _, _, err := connected(t, row.asked, row.config); !errors.Is(err, row.want) {
			t.Errorf("%v: %v in place of %v", row.asked, err, row.want)
		}
	}
}

// Limits of an index hold for all folders of a connection together, and for those that aren't observed.
func TestLimitsOfAllFolders(t *testing.T) {
	three := func(id string) []byte {
		return indexOf(id, file{name: "a", sequence: 1}, file{name: "b", sequence: 2}, file{name: "c", sequence: 3})
	}
	for _, row := range []struct {
		change func(*Limits)
		want   Refusal
	}{{func(limits *Limits) { limits.Records = 5 }, TooManyRecords}, {func(limits *Limits) { limits.Index = int64(2*len(three("docs")) + 9) }, TooLarge}} {
		observer := newObserver(t)
		device := newFake(t, func(f *fake) {
			f.hello()
			f.write(kindClusterConfig, f.sharing(observer.ID, "docs", "more"), false)
			readFrame(f.stream, 1<<20, func() {})
			for _, id := range []string{"docs", "elsewhere", "more"} {
				f.write(kindIndex, three(id), false)
			}
			f.serve()
		})
		limits := short()
		row.change(&limits)
		connection, err := observer.Dial(context.Background(), device.listener.Addr().String(), device.id, Look{Folders: []string{"docs", "more"}}, limits)
		if err != nil {
			t.Fatal(err)
		}
		if _, err = connection.Folders[1].Index(context.Background()); !errors.Is(err, row.want) {
			t.Errorf("%v in place of %v", err, row.want)
		}
		connection.Close()
	}
}
