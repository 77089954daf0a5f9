package summary

import (
	"math/rand"
	"regexp"
	"strings"
	"testing"
)

// there is a word for a device that was named before in the same advice.
var there = regexp.MustCompile(`([Bb]efore Syncthing (starts|scans|starts or scans)|Syncthing is stopped) there`)

// onDevice names a device.
var onDevice = regexp.MustCompile(` (on|from|to) (` + strings.Join(calledSo, "|") + `)\b`)

// No advice says 'before Syncthing starts there' where it has named no device: a reader would take the one that runs.
func TestThereIsADeviceThatWasNamed(t *testing.T) {
	said := 0
	for seed := int64(1); seed <= 4*manyWorlds; seed++ {
		random := rand.New(rand.NewSource(seed))
		all := randomWorld(random)
		all.rows["a"] = all.randomName(random)
		for _, file := range Of(all.answer()).Folders[0].Files {
			for _, advice := range file.Advice {
				place := there.FindStringIndex(advice)
				if place == nil {
					continue
				}
				said++
				if !onDevice.MatchString(advice[:place[0]]) && !strings.HasPrefix(advice, "on ") {
					t.Fatalf("seed %d: %s", seed, advice)
				}
			}
		}
	}
	if said < 50 {
		t.Errorf("it was said %d times only", said)
	}
}
