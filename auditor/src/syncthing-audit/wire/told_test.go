package wire

import (
	"bytes"
	"encoding/binary"
	"errors"
	"strings"
	"testing"
	"time"

	"github.com/syncthing/syncthing/lib/protocol"
	"syncthing-audit/message"
)

// What a refusal tells has each number where the words around it say what that is.
func TestWhatARefusalTells(t *testing.T) {
	limits := &Limits{Index: 1000, Records: 10, Name: 10, IndexQuiet: 3 * time.Second, Grace: time.Second, LeastSteps: 10, LeastBytes: 100}
	over := &Connection{limits: *limits}
	taking := func() *taker { return &taker{folder: "docs", limits: limits, spent: new(spent), index: NewIndex(42)} }
	packed := func(said uint32, body string) error {
		_, err := decompress(append(binary.BigEndian.AppendUint32(nil, said), body...), 9)
		return err
	}
	for due, err := range map[string]error{
		"a message is too long: 12 bytes, where at most 9 are taken":                         readLong(12, 9),
		"a message is too long: 12 bytes once it is decompressed, where at most 9 are taken": packed(12, ""),
		"a message can't be read: it can't be decompressed (0 bytes of 5, <nil>)":            packed(5, ""),
		"a message can't be read: it can't be decompressed (2 bytes of 5, <nil>)":            packed(5, "\x20ab"),
		"sequences in its index don't rise: 3 behind 7":                                      taking().take(indexOf("docs", file{name: "a", sequence: 7}, file{name: "b", sequence: 3}), false),
		"its index isn't whole: up to sequence 0 of 9, and nothing more came in 3s":          (&Shared{over: over, taker: *taking()}).notWhole(9),
		"it takes too long: not all of its answers came in 4s":                               over.tooSlow("answers", 5*time.Second, 4*time.Second, nil),
		"it takes too long: 2 answers, 30 bytes, came in 3s":                                 over.tooSlow("answers", 3*time.Second, 4*time.Second, func() gave { return gave{2, 30} }),
		"a message can't be read: its ClusterConfig: it is odd":                              badly("its ClusterConfig", errors.New("it is odd")),
		"it shares the folder with too many devices: over 0":                                 errorOf(folderOf(message.AppendText(nil, folderDevice, []byte("x")), 0)),
		"a message can't be read: a version of over 4096 counters":                           errorOf(entryIn(message.AppendText(nil, message.FileVersion, []byte(strings.Repeat("\x0a\x00", 4097))), 9)),
		"incorrect length of byte slice representing device ID":                              errorOfDevice(make([]byte, 31)),
		"a device without an id":                                    errorOfDevice(make([]byte, 32)),
		"a message can't be read: a password's token of 2049 bytes": errorOfToken(2049),
		"": errorOfToken(2048),
	} {
		told := ""
		if err != nil {
			told = err.Error()
		}
		if told != due {
			t.Errorf("%q in place of %q", told, due)
		}
	}
}

// readLong gives why a message of so many bytes isn't read.
func readLong(length, most int) error {
	_, _, err := readFrame(bytes.NewReader(frameOf(kindPing, make([]byte, length))), most, func() {})
	return err
}

// errorOf gives why something isn't read.
func errorOf(_ interface{}, err error) error { return err }

// errorOfDevice gives why a device of this id isn't taken.
func errorOfDevice(id []byte) error {
	_, _, err := sharingOf(message.AppendText(nil, deviceID, id))
	return err
}

// errorOfToken gives why a token of so many bytes isn't taken.
func errorOfToken(length int) error {
	id := protocol.DeviceID{1}
	_, _, err := sharingOf(message.AppendText(message.AppendText(nil, deviceID, id[:]), deviceToken, make([]byte, length)))
	return err
}
