package summary

import (
	"math/rand"
	"strings"
	"testing"
	"time"

	"golang.org/x/exp/slices"
	"syncthing-audit/finding"
	"syncthing-audit/join"
	"syncthing-audit/part"
)

// Which numbers devices have changes nothing that is told, and what they are called nothing but names and their order: except where Syncthing's own order
// goes by ids, since changes in conflict are of one time or of one version.
func TestNumbersAndNamesOfDevicesDoNotMatter(t *testing.T) {
	asked := 0
	for seed := int64(1); seed <= 4*manyWorlds; seed++ {
		random := rand.New(rand.NewSource(seed))
		all := randomWorld(random)
		all.rows["a"] = all.randomName(random)
		answer := all.answer()
		if goesByIDs(answer.Folders[0]) {
			continue
		}
		asked++
		was := printedOf(answer)
		renumbered := *all
		renumbered.numbers = nil
		for _, place := range random.Perm(len(all.numbers)) {
			renumbered.numbers = append(renumbered.numbers, uint64(place+1))
		}
		if is := printedOf(renumbered.answer()); is != was {
			t.Fatalf("seed %d, %v: \n%s\nand\n%s\n%s", seed, renumbered.numbers, was, is, rowText(answer.Folders[0].Rows["a"]))
		}
		renamed := *all
		renamed.names = nil
		for _, place := range random.Perm(len(all.names)) {
			renamed.names = append(renamed.names, all.names[place])
		}
		if is := printedOf(renamed.answer()); nameless(is) != nameless(was) {
			t.Fatalf("seed %d, %v: \n%s\nand\n%s\n%s", seed, renamed.names, was, is, rowText(answer.Folders[0].Rows["a"]))
		}
	}
	if asked < manyWorlds {
		t.Errorf("only %d names were asked for", asked)
	}
}

// printedOf gives what a person reads.
func printedOf(answer *finding.Answer) string {
	var text strings.Builder
	Of(answer).Print(&text, time.UTC, time.Time{})
	return strings.Join(strings.Fields(text.String()), " ")
}

// nameless gives the words of a text, sorted, without the names of devices.
func nameless(text string) string {
	words := strings.Fields(text)
	for place, word := range words {
		if name := strings.TrimRight(word, ",:;.)"); slices.Contains(calledSo, name) {
			words[place] = "DEVICE"
		} else {
			words[place] = strings.TrimRight(word, ",;")
		}
	}
	slices.Sort(words)
	return strings.Join(words, " ")
}

// goesByIDs says whether two devices have recorded changes in conflict of one time, or of one version and not the same.
func goesByIDs(folder *finding.Folder) bool {
	for _, row := range folder.Rows {
		for place, at := range row.At {
			for _, other := range row.At[:place] {
				if at != nil && other != nil && at.Own != nil && other.Own != nil && isByID(at.Own, other.Own) {
					return true
				}
			}
		}
	}
	return false
}

// isByID says whether two records are of one time and neither is on top of the other.
func isByID(record, other *part.Record) bool {
	claim, against := join.ClaimOf(record), join.ClaimOf(other)
	return !claim.IsBelow(against) && !against.IsBelow(claim)
}
