package summary

import (
	"math/rand"
	"strings"
	"testing"

	"golang.org/x/exp/slices"
	"syncthing-audit/part"
)

// isRot says whether other bytes stand on a disk than its device recorded, at the recorded size and time.
func isRot(at *part.Name) bool {
	return at != nil && at.Own != nil && at.Own.Content != nil && at.Disk != nil && at.Disk.Type == at.Own.Type && len(at.Disk.Contents) > 0 &&
		at.Disk.ModifiedS == at.Own.ModifiedS && at.Disk.ModifiedNs == at.Own.ModifiedNs && !slices.Contains(at.Disk.Contents, *at.Own.Content) &&
		at.Disk.Contents[0].Size == at.Own.Content.Size
}

// Of a name that is rotten on the one device that has it, an entry says to look for its bytes in backups, and never that nothing is to be done.
func TestRotOfWhichNoDeviceHasACopy(t *testing.T) {
	seen := 0
	for seed := int64(1); seed <= manyWorlds; seed++ {
		random := rand.New(rand.NewSource(seed))
		all := randomWorld(random)
		row := all.randomName(random)
		for place := range row {
			if place > 0 {
				row[place] = nil
			}
		}
		if !isRot(row[0]) || row[0].Own.Invalid || row[0].Own.Deleted {
			continue
		}
		all.rows["a"] = row
		answer := all.answer()
		foretellAll(answer)
		for _, file := range Of(answer).Folders[0].Files {
			seen++
			said := strings.Join(file.Advice, "\n")
			if strings.HasPrefix(said, "nothing") || !strings.Contains(said, "backups") && !strings.Contains(said, "the steps for it above") {
				t.Fatalf("seed %d: %s\n%s", seed, said, rowText(answer.Folders[0].Rows["a"]))
			}
		}
	}
	if seen < 5 {
		t.Error(seen)
	}
}
