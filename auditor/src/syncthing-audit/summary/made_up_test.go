package summary

import (
	"fmt"
	"io"
	"sort"
	"time"

	"syncthing-audit/finding"
	"syncthing-audit/join"
	"syncthing-audit/outlook"
	"syncthing-audit/part"
	"syncthing-audit/print"
)

const (
	laptop = "LAPTOPA" + restOfID
	server = "SERVERA" + restOfID
	phone  = "PHONEAA" + restOfID

	restOfID = "-AAAAAAA-AAAAAAA-AAAAAAA-AAAAAAA-AAAAAAA-AAAAAAA-AAAAAAA"
)

var ids = []string{laptop, server, phone}

// started is when all that is recorded here was changed, and later when some of it was changed again.
const (
	started = 1600000000
	later   = 1600000060
)

// answerOf gives an answer of one folder, docs, at so many devices, numbered from 1.
func answerOf(devices int, fill func(*finding.Folder)) *finding.Answer {
	folder := &finding.Folder{ID: "docs", Label: "Documents", Names: 1204, Deleted: 4, Bytes: 335200000, Rows: map[string]*join.Row{},
		Outlook: &outlook.Outlook{Unknown: []outlook.Group{}, Kept: []outlook.Group{}, Listed: []outlook.Name{}, Plans: []*outlook.Plan{}}}
	answer := &finding.Answer{Folders: []*finding.Folder{folder}}
	for place, name := range []string{"laptop", "server", "phone"}[:devices] {
		head := &part.Head{Device: ids[place], Name: name, Folders: []part.Folder{{ID: "docs", Kind: "send-receive", Path: "/srv/docs"}}}
		device := &join.Device{Head: head, Number: uint64(place + 1)}
		folder.Members = append(folder.Members, join.Member{Device: device, About: &head.Folders[0]})
		answer.Devices = append(answer.Devices, finding.Device{ID: ids[place], Number: device.Number, Name: name})
	}
	told = nil
	fill(folder)
	sort.SliceStable(told, func(a, b int) bool { return finding.IsBefore(&told[a], &told[b], finding.Reasons) })
	for _, failure := range told {
		folder.Failures.Add(failure)
	}
	return answer
}

// told are the failures of the folder that is filled, which are added to it in their order.
var told []finding.Failure

// file gives what a device in step has of a file of three blocks.
func file(version uint64, hash byte) *part.Name {
	content := part.Content{Size: 300000, BlockSize: 131072, Hash: part.Hash{hash}}
	return &part.Name{Own: &part.Record{ModifiedS: started, ModifiedBy: 1, Version: [][2]uint64{{1, version}}, Sequence: 1, Content: &content},
		Disk: &part.Node{ModifiedS: started, Size: 300000, Contents: []part.Content{content}}}
}

// with gives the same with a change.
func with(at *part.Name, change func(*part.Name)) *part.Name {
	change(at)
	return at
}

// rotten has one block of other bytes.
func rotten(at *part.Name) {
	at.Disk.Contents[0].Hash = part.Hash{99}
	at.Disk.Differ = &part.Differ{Count: 1, Ranges: [][2]int64{{2, 2}}, First: part.Pair{Recorded: &part.Hash{0xab, 0xcd}, Found: &part.Hash{0x12}}}
}

// fails adds a name with its reasons, such as 'StoreDiffers 2'.
func fails(folder *finding.Folder, name string, row []*part.Name, reasons ...string) {
	for _, reason := range reasons {
		failure := finding.Failure{Name: name}
		fmt.Sscan(reason, &failure.Reason, &failure.Device)
		told = append(told, failure)
	}
	if row != nil {
		folder.Rows[name] = &join.Row{Name: name, At: row}
	}
}

// unwon adds a name without a winner.
func unwon(folder *finding.Folder, name string, member int, kind string, has *part.Name) {
	folder.Unwon.Add(finding.Unwon{Name: name, At: []finding.Cause{{Member: member, Kind: kind}}})
	row := make([]*part.Name, len(folder.Members))
	row[member] = has
	folder.Rows[name] = &join.Row{Name: name, At: row}
}

// unnamed calls devices by their ids.
func unnamed(id string) string { return id }

// printerOf gives one that prints of devices with these names.
func printerOf(to io.Writer, names map[string]string) *printer {
	return &printer{Person: &print.Person{To: to, Called: func(id string) string { return names[id] }, Zone: time.UTC}}
}
