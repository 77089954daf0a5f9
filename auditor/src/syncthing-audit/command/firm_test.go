package command

import (
	"math/rand"
	"os"
	"path/filepath"
	"strings"
	"testing"

	"syncthing-audit/ask"
	"syncthing-audit/commandline"
	"syncthing-audit/device"
	"syncthing-audit/finding"
	"syncthing-audit/part"
)

// drawAlike draws a folder that is settled, whose names all devices have alike. One in so many records has a version of its
// own.
func drawAlike(t *testing.T, random *rand.Rand, names, rarely int) []*drawn {
	devices := drawDevices(t, random)
	for number := 0; number < names; number++ {
		name, usual := string(rune('a'+number)), drawRecord(random, int64(number+1))
		usual.Record.Invalid = false
		usualVersion := usual.Record.Version
		pick := func() device.Entry {
			record := *usual.Record
			record.ModifiedS, record.ModifiedNs = int64(random.Intn(2)+1000), random.Intn(2)
			record.ModifiedBy = uint64(random.Intn(2) + 1)
			if record.Version = usualVersion; random.Intn(rarely) == 0 {
				record.Version = [][2]uint64{{1, uint64(random.Intn(2) + 1)}, {2, uint64(random.Intn(2) + 1)}}
			}
			if record.Content != nil && record.Content.Size <= block {
				content := *record.Content
				content.BlockSize = block << random.Intn(2)
				record.Content = &content
			}
			return device.Entry{Name: name, Record: &record, Blocks: usual.Blocks}
		}
		for _, device := range devices {
			if own := pick(); !own.Record.Deleted || random.Intn(3) > 0 {
				device.own = append(device.own, own)
				putNode(t, filepath.Join(device.path, name), own, false)
			}
			for _, view := range device.about.Views {
				if random.Intn(3) > 0 {
					device.views[view.Device] = append(device.views[view.Device], pick())
				}
			}
		}
		if usual.Record.Deleted && len(devices[0].own) == number {
			own := pick()
			devices[0].own = append(devices[0].own, own)
		}
	}
	return devices
}

// Which names keep a settled folder from being firm is found as syncaudit says it: an answer in which its first one differs
// is refused.
func TestWhatKeepsAFolderFromBeingFirm(t *testing.T) {
	seen := map[string]int{}
	for seed := int64(1); seed <= 6; seed++ {
		rarely := []int{6, 100}[seed%2]
		answer := answerOfDrawn(t, drawAlike(t, rand.New(rand.NewSource(seed)), 3, rarely), false)
		folder := answer.Folders[0]
		if first := folder.FirstFailure(); first != nil {
			t.Fatalf("seed %d: %v", seed, first)
		}
		seen[string(folder.HowFirm())]++
		folder.EachLoose(func(failure *finding.Failure) { seen[failure.Reason]++ })
	}
	for _, reason := range []string{string(finding.IsFirm), string(finding.NotFirm), finding.VersionDiffers, finding.ViewNotBelow} {
		if seen[reason] == 0 {
			t.Errorf("no %s was drawn: %v", reason, seen)
		}
	}
}

// What is known of a device that isn't audited doesn't count.
func TestViewsOfOthersDoNotCount(t *testing.T) {
	devices := drawDevices(t, rand.New(rand.NewSource(1)))
	own := drawRecord(rand.New(rand.NewSource(2)), 1)
	own.Name, own.Record.Invalid, own.Record.Version = "a", false, [][2]uint64{{1, 1}}
	newer := *own.Record
	newer.Version = [][2]uint64{{1, 1}, {3, 1}}
	for _, drawn := range devices {
		drawn.own = []device.Entry{own}
		putNode(t, filepath.Join(drawn.path, "a"), own, false)
	}
	devices[0].views[devices[2].id] = []device.Entry{{Name: "a", Record: &newer, Blocks: own.Blocks}}
	asked := commandline.Options{LeaveOut: map[string]bool{part.Absent: true}, Jobs: 1}
	for count, is := range map[int]finding.Firm{3: finding.NotFirm, 2: finding.IsFirm} {
		if how := answerOfSome(t, devices[:count], asked).HowFirm(); how != is {
			t.Errorf("of %d devices: %s", count, how)
		}
	}
}

// A program that calls firm what isn't is refused: its answer doesn't go with what is found here.
func TestAnAnswerThatDiffersIsRefused(t *testing.T) {
	path := filepath.Join(t.TempDir(), "program")
	text := "#!/bin/sh\necho firm; echo 'folder docs: 1 names, 0 deleted, 3 devices'\n"
	if err := os.WriteFile(path, []byte(text), 0o700); err != nil {
		t.Fatal(err)
	}
	for versions, isRefused := range map[uint64]bool{1: false, 2: true} {
		devices := drawDevices(t, rand.New(rand.NewSource(1)))
		for place, drawn := range devices {
			own := drawRecord(rand.New(rand.NewSource(2)), 1)
			own.Name, own.Record.Invalid, own.Record.Version = "a", false, [][2]uint64{{1, 1}}
			if place == 0 {
				own.Record.Version[0][1] = versions
			}
			drawn.own = []device.Entry{own}
			putNode(t, filepath.Join(drawn.path, "a"), own, false)
		}
		_, err := answerBy(ask.Program{Path: path}, devices, commandline.Options{Jobs: 1})
		if (err != nil) != isRefused || err != nil && !strings.Contains(err.Error(), `this program that VersionDiffers of "a" on `) {
			t.Errorf("%d: %v", versions, err)
		}
	}
}
