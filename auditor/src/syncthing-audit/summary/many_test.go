package summary

import (
	"fmt"
	"runtime"
	"strings"
	"testing"
	"time"

	"syncthing-audit/finding"
	"syncthing-audit/part"
)

// Of names beyond those whose details are kept, all are counted, and told in as many entries as there are sets of devices
// at fault, however their faults differ.
func TestNamesWithoutDetails(t *testing.T) {
	reasons := [][]string{{"StoreDiffers 2"}, {"RecordDiffers 1", "StoreDiffers 2"}, {"LocalOnly 2"}, {"RecordMissing 2"}}
	answer := answerOf(2, func(folder *finding.Folder) {
		fails(folder, "a", []*part.Name{file(1, 1), with(file(1, 1), rotten)}, "StoreDiffers 2")
		for next := 0; next < 400; next++ {
			fails(folder, fmt.Sprintf("b%03d", next), nil, reasons[next%4]...)
		}
	})
	docs := Of(answer).Folders[0]
	if docs.Wrong != 401 || len(docs.Files) != 1 || docs.Files[0].Name != "a" {
		t.Errorf("%d names are wrong, %d are told one by one", docs.Wrong, len(docs.Files))
	}
	names := map[string]int64{}
	for _, group := range docs.Groups {
		words := []string{string(group.Cause)}
		for _, device := range group.Devices {
			words = append(words, device[:6])
		}
		names[strings.Join(words, " ")] += group.Names
		if group.Unsized != group.Names {
			t.Errorf("details are told of %d", group.Names-group.Unsized)
		}
	}
	expected := map[string]int64{"differs SERVER": 200, "differs LAPTOP SERVER": 100, "behind SERVER": 100}
	if fmt.Sprint(names) != fmt.Sprint(expected) {
		t.Errorf("%v, not %v", names, expected)
	}
}

// However many kinds of modes there are, they take no more entries than people can read.
func TestManyKindsOfModes(t *testing.T) {
	answer := answerOf(2, func(folder *finding.Folder) {
		for next := uint32(0); next < 3*mostKinds; next++ {
			folder.Permissions.Add(finding.Permissions{Name: fmt.Sprintf("%05d", next), At: []finding.Bits{{Has: true, Index: next}, {Has: true, Index: next + 1}}})
		}
	})
	docs := Of(answer).Folders[0]
	if len(docs.Files) != mostKinds || len(docs.Groups) != 1 || docs.Groups[0].Names != 2*mostKinds || docs.Wrong != 0 {
		t.Errorf("%d alone, %d groups, %d wrong", len(docs.Files), len(docs.Groups), docs.Wrong)
	}
}

// What an answer and its summary hold in memory doesn't grow with the number of names that fail.
func TestMemory(t *testing.T) {
	t.Setenv("TMPDIR", t.TempDir())
	const names, most = 50000, 16 << 20
	var before, after runtime.MemStats
	runtime.GC()
	runtime.ReadMemStats(&before)
	answer := answerOf(2, func(*finding.Folder) {})
	folder := answer.Folders[0]
	for next := 0; next < names; next++ {
		name := fmt.Sprintf("a directory with a long name/photo %06d.jpg", next)
		folder.Failures.Add(finding.Failure{Reason: "StoreDiffers", Name: name, Device: uint64(next%2 + 1)})
		folder.Unwon.Add(finding.Unwon{Name: name + "~", At: []finding.Cause{{Kind: finding.Unscanned}}})
	}
	summary := Of(answer)
	runtime.GC()
	runtime.ReadMemStats(&after)
	if grown := int64(after.HeapAlloc) - int64(before.HeapAlloc); grown > most {
		t.Errorf("%d names take %d bytes", names, grown)
	}
	var written strings.Builder
	summary.Print(&written, time.UTC, time.Time{})
	if summary.Folders[0].Wrong != 2*names || !strings.Contains(written.String(), "100,000 names are wrong") || answer.Err() != nil {
		t.Errorf("%d names are wrong, %v", summary.Folders[0].Wrong, answer.Err())
	}
	count := 0
	folder.EachFailure(func(*finding.Failure) { count++ })
	if count != 2*names {
		t.Errorf("%d failures", count)
	}
}
