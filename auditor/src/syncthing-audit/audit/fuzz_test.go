package audit

import (
	"bytes"
	"compress/gzip"
	"encoding/json"
	"io"
	"strings"
	"sync"
	"testing"
	"time"

	"github.com/syncthing/syncthing/lib/protocol"
	"syncthing-audit/finding"
	"syncthing-audit/hang"
	"syncthing-audit/join"
	"syncthing-audit/limits"
	"syncthing-audit/part"
	"syncthing-audit/rows"
)

// aPart gives the lines of JSON of a small part: a file, a symlink, a deletion, a local change, and a name that is left out.
func aPart(t testing.TB, number byte) []byte {
	other := protocol.DeviceID{7: 3 - number}.String()
	head := &part.Head{Version: part.FirstVersion, Device: protocol.DeviceID{7: number}.String(), Name: "laptop", Made: time.Unix(0, 0).UTC(),
		Folders: []part.Folder{{ID: "docs", Kind: "send-receive", Directory: other, IndexID: uint64(number), Max: 9,
			Sharing: []part.Sharing{{Device: other, Name: "server"}}, Views: []part.View{{Device: other, IndexID: uint64(3 - number), Max: 9}}}}}
	var text bytes.Buffer
	to, err := part.NewLinesWriter(&text, head)
	if err != nil {
		t.Fatal(err)
	}
	permissions := uint32(0o644)
	content := part.Content{Size: 5, BlockSize: protocol.MinBlockSize, Hash: part.Hash{1}}
	file := &part.Record{ModifiedBy: 1, Version: [][2]uint64{{1, 2}}, Sequence: 1, Content: &content, Permissions: &permissions}
	seen := *file
	seen.Sequence = 7
	lines := []part.Line{
		{Begin: &part.Begin{Folder: "docs"}},
		{Name: &part.Name{Name: "a", Own: file, Views: []part.Seen{{Record: &seen}}, Disk: &part.Node{Size: 5, Contents: []part.Content{content},
			Permissions: permissions, Differ: &part.Differ{Count: 1, Ranges: [][2]int64{{0, 0}}, First: part.Pair{Recorded: &part.Hash{2}}}}}},
		{Name: &part.Name{Name: "b", Own: &part.Record{ModifiedBy: 1, Sequence: 2, Deleted: true}}},
		{Name: &part.Name{Name: "c", Own: &part.Record{Type: 4, ModifiedBy: 1, Sequence: 3, Target: "a"}, Disk: &part.Node{Type: 4, Target: "a"}}},
		{Name: &part.Name{Name: "d", Own: &part.Record{Type: 1, ModifiedBy: 1, Sequence: 4, Invalid: true}, Disk: &part.Node{Type: 1}}},
		{Name: &part.Name{Name: "e\xff", Out: []part.LeftOut{{Kind: part.OddName, Why: "its name isn't UTF-8", Bytes: 3}}}},
		{Name: &part.Name{Name: "f/", Out: []part.LeftOut{{Kind: part.Unreadable, Why: "it can't be read", Below: true}}}},
		{End: &part.End{Folder: "docs", Names: 6, Bytes: 5, Max: 9, Last: true}},
	}
	for _, line := range lines {
		if err := to.Take(line); err != nil {
			t.Fatal(err)
		}
	}
	return text.Bytes()
}

// zippers are kept: a new one takes longer than all that is done with a small part.
var zippers = sync.Pool{New: func() any {
	made, _ := gzip.NewWriterLevel(nil, gzip.NoCompression)
	return made
}}

func zipped(text []byte) io.Reader {
	var made bytes.Buffer
	to := zippers.Get().(*gzip.Writer)
	defer zippers.Put(to)
	to.Reset(&made)
	to.Write(text)
	to.Close()
	return &made
}

// audited audits a part with another one, and checks each document.
func audited(t *testing.T, text, other []byte) error {
	_, err := answerOf(t, text, other)
	return err
}

// answerOf gives what is found in two parts.
func answerOf(t *testing.T, text, other []byte) (*finding.Answer, error) {
	var devices []*join.Device
	for _, one := range [][]byte{text, other} {
		read, err := part.NewReader(zipped(one))
		if err != nil {
			return nil, err
		}
		devices = append(devices, join.NewDevice(read, "a part"))
	}
	return answerOfDevices(t, devices)
}

// answerOfDevices gives what is found at devices, with all left out that may be.
func answerOfDevices(t *testing.T, devices []*join.Device) (*finding.Answer, error) {
	plan, err := join.NewPlan(devices, nil)
	if err != nil {
		return nil, err
	}
	answer, err := Collect(plan, Options{}, func(one *rows.Piece) error {
		if !json.Valid(one.Written) || len(one.Written) > limits.MostBytes {
			t.Errorf("no document: %s", one.Written)
		}
		return nil
	})
	if err == nil && len(answer.Devices) != 2 {
		t.Errorf("%d devices", len(answer.Devices))
	}
	return answer, err
}

// Whatever a part says, it is audited or refused with a reason, and nothing panics.
func FuzzParts(f *testing.F) {
	text, other := aPart(f, 1), aPart(f, 2)
	f.Add(text)
	f.Add(bytes.ReplaceAll(text, []byte(`"sequence":2`), []byte(`"sequence":-2`)))
	f.Add(aSlice(f, 1))
	f.Add(aLook(f, 1, false))
	f.Add(aLook(f, 1, true))
	f.Fuzz(func(t *testing.T, text []byte) {
		defer hang.Watch()()
		if err := audited(t, text, other); err != nil && err.Error() == "" {
			t.Error("refused without a reason")
		}
	})
}

// broken is a part that has something wrong.
type broken struct{ why, text string }

// brokenOf gives parts that were made of a good one.
func brokenOf(text string) []broken {
	lines := strings.SplitAfter(text, "\n")
	return []broken{
		{"nothing", ""},
		{"a head alone", lines[0]},
		{"no end", strings.Join(lines[:len(lines)-2], "")},
		{"a last line that isn't whole", text[:len(text)-1]},
		{"names out of order", lines[0] + lines[1] + lines[3] + lines[2] + strings.Join(lines[4:], "")},
		{"a name twice", lines[0] + lines[1] + lines[2] + lines[2] + strings.Join(lines[3:], "")},
		{"another version", strings.Replace(text, `"version":1`, `"version":2`, 1)},
		{"no device id", strings.Replace(text, `"device":"`, `"device":"x`, 1)},
		{"an odd kind of folder", strings.Replace(text, "send-receive", "both", 1)},
		{"a sequence above the greatest", strings.Replace(text, `"sequence":3`, `"sequence":10`, 1)},
		{"a view's sequence above the greatest", strings.Replace(text, `"same":7`, `"same":10`, 1)},
		{"a view of nothing", strings.Replace(text, `"view":0,`, `"view":1,`, 1)},
		{"a view without a record", strings.Replace(text, `"view":0,"same":7`, `"view":0`, 1)},
		{"a symlink without a target", strings.Replace(text, `"target":"a"`, `"target":""`, 1)},
		{"a file without a content", strings.Replace(text, `"content":{`, `"was":{`, 1)},
		{"a hash that is too short", strings.Replace(text, `"hash":"0100`, `"hash":"01`, 1)},
		{"a number for a name", strings.Replace(text, `"name":"b"`, `"name":7`, 1)},
		{"a name that no document has", strings.Replace(text, `"name":"b"`, `"name":"a//b"`, 1)},
		{"a kind that is none", strings.Replace(text, `"kind":"unreadable"`, `"kind":"odd"`, 1)},
		{"more blocks that differ than are listed", strings.Replace(text, `"count":1`, `"count":2`, 1)},
		{"no blocks that differ", strings.Replace(text, `"ranges":[[0,0]]`, `"ranges":[]`, 1)},
		{"a block that the file hasn't", strings.Replace(text, `"ranges":[[0,0]]`, `"ranges":[[1,1]]`, 1)},
		{"blocks that end before they begin", strings.Replace(text, `"ranges":[[0,0]]`, `"ranges":[[0,-1]]`, 1)},
		{"an index that changed meanwhile", strings.Replace(text, `"max":9,"last":true`, `"max":10,"last":true`, 1)},
		{"of an earlier moment than the other", strings.Replace(text, `"index_id":"1","max":9`, `"index_id":"1","max":8`, 1)},
	}
}

func TestPartsThatAreRefused(t *testing.T) {
	text, other := string(aPart(t, 1)), aPart(t, 2)
	if err := audited(t, []byte(text), other); err != nil {
		t.Fatal(err)
	}
	for _, one := range brokenOf(text) {
		if one.text == text {
			t.Errorf("%s: nothing was changed", one.why)
		}
		if err := audited(t, []byte(one.text), other); err == nil {
			t.Errorf("%s: it was taken", one.why)
		}
	}
}

// All names below a directory that one device can't read are left out together, and counted.
func TestNamesBelowWhatCannotBeRead(t *testing.T) {
	text, other := aPart(t, 1), string(aPart(t, 2))
	lines := strings.SplitAfter(other, "\n")
	below := strings.Replace(strings.Replace(lines[3], `"name":"b"`, `"name":"f/x"`, 1), `"sequence":2`, `"sequence":8`, 1)
	end := strings.Replace(lines[8], `"names":6`, `"names":7`, 1)
	answer, err := answerOf(t, text, []byte(strings.Join(lines[:8], "")+below+end))
	if err != nil {
		t.Fatal(err)
	}
	for _, one := range answer.Folders[0].LeftOut {
		if one.Name == "f/" && one.Below && one.Names == 1 {
			return
		}
	}
	t.Errorf("%+v", answer.Folders[0].LeftOut)
}
