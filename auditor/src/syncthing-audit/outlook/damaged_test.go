package outlook

import (
	"crypto/sha256"
	"math/rand"
	"testing"

	"golang.org/x/exp/slices"
	"syncthing-audit/join"
	"syncthing-audit/part"
)

// zeroed has zeros stand on a disk in place of a file, under a later time.
func zeroed(at *part.Name) {
	block := part.Hash(sha256.Sum256(make([]byte, at.Own.Content.Size)))
	recorded := part.Hash{1}
	at.Disk.ModifiedS += 900
	at.Disk.Contents = []part.Content{{Size: at.Own.Content.Size, BlockSize: 1 << 17, Hash: part.Hash(sha256.Sum256(block[:]))}}
	at.Disk.Differ = &part.Differ{Count: 1, Ranges: [][2]int64{{0, 0}}, First: part.Pair{Recorded: &recorded, Found: &block}}
}

// Where rot goes by a recorded deletion, the right bytes on other devices go, too: a scan may have recorded as a deletion what was missing. All is saved.
func TestWhatADeletionTakesBesideRotIsSaved(t *testing.T) {
	row := calm("a", 3, 1)
	changed(row, 0, 50, 300)
	row.At[0].Own.Deleted, row.At[0].Own.Content, row.At[0].Disk = true, nil, nil
	row.At[2].Disk.Contents[0].Hash = part.Hash{99}
	told := outlookOf(folderOf("send-receive", "send-receive", "send-receive"), []*join.Row{row})
	if len(told.Plans) != 1 || !told.Plans[0].isOf([]Step{{Act: Save, Device: idOf(2)}, {Act: Save, Device: idOf(1)}}, nil) {
		t.Errorf("%+v", told.Plans)
	}
}

// What looks like damage has replaced nothing, also under a later time: what other devices have goes by it, and is the best that is left.
func TestWhatDamageReplacesIsLost(t *testing.T) {
	for _, isChanged := range []bool{true, false} {
		row := calm("a", 3, 1)
		if isChanged { // a newer change, whose bytes are on no disk any more
			changed(row, 0, 50, 300)
		}
		zeroed(row.At[0])
		told := outlookOf(folderOf("send-receive", "send-receive", "send-receive"), []*join.Row{row})
		if len(told.Listed) != 1 || told.Listed[0].Fate != Lost || len(told.Listed[0].Loses) != 1 || len(told.Listed[0].Loses[0].Devices) != 2 {
			t.Fatalf("changed %v: %+v", isChanged, told.Listed)
		}
		if len(told.Plans) != 1 {
			t.Errorf("changed %v: %+v", isChanged, told.Plans)
		}
	}
}

// harmedRow gives a name that some devices changed or recorded as empty, and that stands on disks as recorded, or is rotten, cut, emptied or missing.
func harmedRow(random *rand.Rand, devices int) *join.Row {
	row := calm("a", devices, 1)
	for member, at := range row.At {
		if random.Intn(3) == 0 {
			changed(row, member, byte(50+member), int64(200+random.Intn(100)))
			if random.Intn(2) == 0 {
				at.Own.Content = &part.Content{Size: 0, BlockSize: 1 << 17, Hash: part.Hash{7}}
				at.Disk.Size, at.Disk.Contents = 0, []part.Content{*at.Own.Content}
			}
		}
		switch random.Intn(8) {
		case 0:
			at.Disk = nil
		case 1:
			at.Disk.Contents[0].Hash[1] ^= byte(80 + member)
		case 2, 3:
			empty := part.Content{Size: 0, BlockSize: 1 << 17, Hash: part.Hash{7}}
			at.Disk.Size, at.Disk.Contents = 0, []part.Content{empty}
			at.Disk.ModifiedS += int64(random.Intn(2) * 700)
		}
	}
	return row
}

// No steps lead to an empty file where a disk has bytes of the name: an empty one may be recorded damage. And nothing is copied from a device to itself.
func TestStepsLeadToNoEmptyFile(t *testing.T) {
	planned := 0
	for seed := int64(1); seed <= 400; seed++ {
		random := rand.New(rand.NewSource(seed))
		devices := 2 + random.Intn(3)
		row := harmedRow(random, devices)
		hasBytes := slices.IndexFunc(row.At, func(at *part.Name) bool { return at.Disk != nil && at.Disk.Size > 0 }) >= 0
		kinds := kindsOf(seed, devices)
		for _, plan := range outlookOf(folderOf(kinds...), []*join.Row{row}).Plans {
			planned++
			if hasBytes && plan.Goal != nil && plan.Goal.isEmpty() {
				t.Fatalf("seed %d, %v: %+v leads to %+v", seed, kinds, plan, *plan.Goal)
			}
			for _, step := range plan.Steps {
				if step.Act == Copy && step.From == step.Device {
					t.Fatalf("seed %d, %v: %+v", seed, kinds, plan)
				}
			}
		}
	}
	if planned < 100 {
		t.Error("too few plans:", planned)
	}
}
