package command

import (
	"math/rand"
	"path/filepath"
	"testing"

	"syncthing-audit/device"
	"syncthing-audit/finding"
	"syncthing-audit/forecast"
	"syncthing-audit/outlook"
	"syncthing-audit/part"
)

// drawChain draws a folder whose names' records lead up to one on some device, but for what goes wrong in some rounds.
func drawChain(t *testing.T, random *rand.Rand, names int) []*drawn {
	devices := drawDevices(t, random)
	for _, device := range devices {
		device.about.Options, device.runs = &part.Options{MaxConflicts: -1}, "v1.19.2"
		for place := range device.about.Views {
			device.about.Views[place].Max = 10*int64(random.Intn(names+1)) + 9
		}
	}
	for number := 0; number < names; number++ {
		drawChained(t, random, devices, string(rune('a'+number)), 10*int64(number+1))
	}
	return devices
}

// drawChained draws what the devices have of a name: each an own record of its chain, and of each other device its own record or, where
// the device hasn't heard so far of its index, an older one.
func drawChained(t *testing.T, random *rand.Rand, devices []*drawn, name string, sequence int64) {
	chain := []device.Entry{}
	for length := 1; length <= 3; length++ {
		next := drawRecord(random, sequence)
		for next.Record.Content == nil && !next.Record.Deleted {
			next = drawRecord(random, sequence)
		}
		next.Name, next.Record.Invalid = name, random.Intn(60) == 0
		counter := uint64(1000) // another device's, so that the change is nobody's own here
		if random.Intn(8) == 0 {
			counter = 1
		}
		next.Record.Version = [][2]uint64{{counter, uint64(length)}, {2000, 1}}
		if random.Intn(20) == 0 {
			next.Record.Version[1][1] = uint64(5 - length)
		}
		chain = append(chain, next)
	}
	owns := map[string]int{}
	for _, device := range devices {
		owns[device.id] = random.Intn(len(chain)+1) - 1
		if place := owns[device.id]; place >= 0 {
			device.own = append(device.own, chain[place])
			putNode(t, filepath.Join(device.path, name), chain[place], random.Intn(40) == 0)
		}
	}
	for _, device := range devices {
		for _, view := range device.about.Views {
			place := owns[view.Device]
			if sequence > view.Max {
				place = random.Intn(place+2) - 1
			}
			if place < 0 {
				continue
			}
			seen := chain[place]
			if record := *seen.Record; sequence > view.Max {
				record.Sequence = sequence / 10
				seen.Record = &record
			}
			device.views[view.Device] = append(device.views[view.Device], seen)
		}
	}
}

// losesToHarm says whether all that a name loses are bytes of files over which an empty file is recorded, or other bytes under the very time, and that comes
// to all devices. That is a change as any other to what is proved; the answer warns of it, since a scan may have taken a harmed file for a change.
func losesToHarm(name *outlook.Name, devices int) bool {
	if len(name.Ends) != 1 || len(name.Ends[0]) != 1 {
		return false
	}
	end := name.Ends[0][0]
	for _, thing := range name.Loses {
		looksHarmed := end.Content.Size == 0 || end.Modified != nil && thing.Modified != nil && end.Modified.Equal(*thing.Modified)
		if thing.Type != forecast.File || thing.Content.Size == 0 || !looksHarmed {
			return false
		}
	}
	return end.Type == forecast.File && len(end.Devices) == devices
}

// What is proved and what the model of Syncthing foretells go together: of a folder whose records lead to one end the model foretells
// no conflict copy and no other end, and no loss but of bytes over which something is recorded that looks harmed. So it is in many rounds;
// and each reason that hinders a folder is seen in some.
func TestWhatConvergesComesRight(t *testing.T) {
	seen, rounds := map[string]int{}, int64(100)
	isSlow := auditor().Path == "../../../test/"+standIn
	if isSlow {
		rounds = 6
	}
	for seed := int64(1); seed <= rounds; seed++ {
		answer := answerOfDrawn(t, drawChain(t, rand.New(rand.NewSource(seed)), 2), false)
		folder := answer.Folders[0]
		if !folder.HasFailures() {
			continue
		}
		how := answer.HowConverging(folder)
		seen[string(how)]++
		if folder.Convergence.First != nil {
			seen[folder.Convergence.First.Reason]++
		}
		if how != finding.Converges {
			continue
		}
		told := folder.Outlook
		if told == nil || told.Names == 0 {
			t.Errorf("seed %d: the folder converges, and nothing is foretold: %+v", seed, told)
			continue
		}
		for place := range told.Listed {
			name := &told.Listed[place]
			switch name.Fate {
			case outlook.Lost:
				if !losesToHarm(name, len(folder.Members)) {
					t.Errorf("seed %d: the folder converges, and the model foretells a loss: %+v", seed, name)
				}
				seen["harmed"]++
			case outlook.Depends, outlook.Stays, outlook.Changed:
				t.Errorf("seed %d: the folder converges, and the model foretells %q: %+v", seed, name.Fate, name)
			}
		}
		if told.NotKnown == 0 {
			seen["foretold"]++
		}
	}
	if seen["foretold"] == 0 || !isSlow && (seen["harmed"] == 0 || seen["WouldCopy"] == 0 || seen["NothingPrevails"] == 0 || seen["StoreUnclean"] == 0) {
		t.Error(seen)
	}
}
