package command

import (
	"bytes"
	"compress/gzip"
	"encoding/json"
	"fmt"
	"strings"
	"syscall"
	"testing"
	"time"

	"github.com/syncthing/syncthing/lib/protocol"
	"syncthing-audit/part"
)

// aDevice gives the id of one of many devices.
func aDevice(number int) string {
	return protocol.DeviceID{1: byte(number >> 16), 2: byte(number >> 8), 3: byte(number), 7: 9}.String()
}

// longLists are ways to make a list of a part long.
var longLists = []struct {
	why      string
	most     int // for the first number that is refused, where a limit is
	allowed  int
	lengthen func(parts []*hostile, count int)
}{
	{"folders", 10001, 3000, func(parts []*hostile, count int) {
		for at := 0; at < count; at++ {
			parts[0].Head.Folders = append(parts[0].Head.Folders, part.Folder{ID: fmt.Sprintf("e%08d", at), Kind: "send-only", IndexID: 1})
			name := parts[0].Head.Folders[at+1].ID
			end := parts[0].Lines[len(parts[0].Lines)-1]
			end.End.Last = false
			parts[0].Lines = append(parts[0].Lines, &part.Line{Begin: &part.Begin{Folder: name}}, &part.Line{End: &part.End{Folder: name, Last: true}})
		}
	}},
	{"other folders", 10001, 9999, func(parts []*hostile, count int) {
		for at := 0; at < count; at++ {
			parts[0].Head.Others = append(parts[0].Head.Others, part.Other{ID: fmt.Sprintf("n%08d", at), Devices: []string{}, Away: "x"})
		}
	}},
	{"devices of another folder", 1001, 999, func(parts []*hostile, count int) {
		for at := 0; at < count; at++ {
			parts[0].Head.Others[0].Devices = append(parts[0].Head.Others[0].Devices, aDevice(at))
		}
	}},
	{"devices of a folder", 1001, 999, func(parts []*hostile, count int) {
		for at := 0; at < count; at++ {
			parts[0].Head.Folders[0].Sharing = append(parts[0].Head.Folders[0].Sharing, part.Sharing{Device: aDevice(at)})
		}
	}},
	{"views", 1001, 999, func(parts []*hostile, count int) {
		for at := 0; at < count; at++ {
			for _, sent := range parts {
				sent.Head.Folders[0].Views = append(sent.Head.Folders[0].Views, part.View{Device: aDevice(at), IndexID: 1})
			}
		}
	}},
	{"paused devices", 1001, 999, func(parts []*hostile, count int) {
		for at := 0; at < count; at++ {
			parts[0].Head.Folders[0].PausedDevices = append(parts[0].Head.Folders[0].PausedDevices, aDevice(at))
		}
	}},
	{"writers", 1001, 999, func(parts []*hostile, count int) {
		for at := 0; at < count; at++ {
			parts[0].Head.Folders[0].Writers = append(parts[0].Head.Folders[0].Writers, fmt.Sprint(at))
		}
	}},
	{"reasons to leave a name out", 10000, 10000, func(parts []*hostile, count int) {
		for at := 0; at < count; at++ {
			parts[0].Lines[1].Name.Out = append(parts[0].Lines[1].Name.Out, part.LeftOut{Kind: part.Changing, Why: fmt.Sprint(at)})
		}
	}},
	{"contents of a file", 7000, 7000, func(parts []*hostile, count int) {
		for at := 0; at < count; at++ {
			parts[0].Lines[1].Name.Disk.Contents = append(parts[0].Lines[1].Name.Disk.Contents, part.Content{Size: 5, BlockSize: protocol.MinBlockSize, Hash: part.Hash{1, byte(at >> 8), byte(at)}})
		}
	}},
}

// secondsOfProcessor gives what this process has taken of one.
func secondsOfProcessor() float64 {
	var used syscall.Rusage
	syscall.Getrusage(syscall.RUSAGE_SELF, &used)
	return time.Duration(used.Utime.Nano() + used.Stime.Nano()).Seconds()
}

// readRaw reads a part that was written by no rule at all.
func readRaw(t *testing.T, from *hostile) error {
	var zipped bytes.Buffer
	to := gzip.NewWriter(&zipped)
	encoder := json.NewEncoder(to)
	encoder.Encode(from.Head)
	for _, line := range from.Lines {
		encoder.Encode(line)
	}
	to.Close()
	read, err := part.NewReader(&zipped)
	for err == nil {
		_, err = read.Next()
	}
	return err
}

// Whatever list of a part is as long as there is room for it, reading the part and joining it with others doesn't take much longer than its bytes
// do: it is refused, or audited.
func TestLongLists(t *testing.T) {
	for _, list := range longLists {
		began := secondsOfProcessor()
		parts := stoppedParts(1)
		list.lengthen(parts, list.most)
		if err := readRaw(t, parts[0]); list.allowed < list.most && (err == nil || !strings.Contains(err.Error(), "at most")) {
			t.Errorf("%d %s: %.200v", list.most, list.why, err)
		}
		make := stoppedParts
		if list.why == "views" { // two looks join them
			make = runningParts
		}
		parts = make(1)
		list.lengthen(parts, list.allowed)
		if err := collected(t, list.why, parts, make(2)); err != nil {
			t.Errorf("%d %s: %.200v", list.allowed, list.why, err)
		}
		if spent := secondsOfProcessor() - began; spent > 20 {
			t.Errorf("%s: %.1f s", list.why, spent)
		}
	}
}
