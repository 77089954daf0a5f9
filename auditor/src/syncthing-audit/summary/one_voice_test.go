package summary

import (
	"fmt"
	"math/rand"
	"regexp"
	"strings"
	"testing"

	"golang.org/x/exp/slices"
	"syncthing-audit/finding"
	"syncthing-audit/part"
)

var (
	saysNothing = regexp.MustCompile(`^nothing(:| but)`)
	// What is to be done before Syncthing starts, and what puts back what was recorded.
	isBefore = regexp.MustCompile(`before Syncthing (starts|scans)|while Syncthing is stopped|^first |^copy elsewhere|^the steps`)
	putsBack = regexp.MustCompile(`to have again what`)
)

// voicesOf gives what an entry says with two voices: that nothing is to be done beside something that is, or that something is put back beside steps.
func voicesOf(advice []string) string {
	first := func(of *regexp.Regexp) int { return slices.IndexFunc(advice, of.MatchString) }
	switch {
	case first(saysNothing) >= 0 && len(advice) > 1:
		return "nothing is to be done, and something is"
	case first(putsBack) >= 0 && slices.IndexFunc(advice, func(told string) bool { return strings.HasSuffix(told, "under 'to do in'") }) >= 0:
		return "something is put back beside the steps that do it"
	}
	return ""
}

// An entry speaks with one voice, be it of one name or of a group, and whatever is known of what happens.
func TestAnEntrySpeaksWithOneVoice(t *testing.T) {
	found := map[string]int{}
	for seed := int64(1); seed <= manyWorlds/2; seed++ {
		random := rand.New(rand.NewSource(seed))
		all := randomWorld(random)
		row := all.randomName(random)
		for number := 0; number <= mostAlone*(int(seed)%2); number++ {
			name := fmt.Sprint("a", number)
			if all.rows[name] = row; seed%3 == 0 {
				all.modes[name] = randomModes(random, row)
			}
		}
		answer := all.answer()
		if seed%4 > 0 {
			foretellAll(answer)
		}
		for _, advice := range adviceIn(Of(answer).Folders[0]) {
			if said := voicesOf(advice); said != "" {
				t.Fatalf("seed %d: %s, in\n%s\n%s", seed, said, strings.Join(advice, "\n"), rowText(answer.Folders[0].Rows["a0"]))
			}
			for what, of := range map[string]*regexp.Regexp{"nothing": saysNothing, "before": isBefore, "back": putsBack} {
				if slices.IndexFunc(advice, of.MatchString) >= 0 {
					found[what]++
				}
			}
		}
	}
	for _, what := range []string{"nothing", "before", "back"} {
		if found[what] < 8 {
			t.Errorf("too few entries of a kind: %v", found)
		}
	}
}

// What an entry points to stands above it, and nothing is chosen beside steps that change what it does.
func TestWhatAnEntryPointsToStandsAbove(t *testing.T) {
	found := map[string]int{}
	for seed := int64(1); seed <= manyWorlds/4; seed++ {
		random := rand.New(rand.NewSource(seed))
		all := randomWorld(random)
		for _, name := range []string{"a", "b", "c"} {
			all.rows[name] = all.randomName(random)
		}
		answer := all.answer()
		foretellAll(answer)
		text := printedOf(answer)
		for _, part := range []string{"to do in", "to choose in"} {
			isThere := strings.Contains(text, " "+part+" docs")
			if at := strings.Index(text, "'"+part+"'"); at >= 0 {
				if found[part]++; !isThere || strings.LastIndex(text, " "+part+" docs") > at {
					t.Fatalf("seed %d: '%s' isn't above what points to it:\n%s", seed, part, text)
				}
			}
		}
		if isBoth := strings.Contains(text, " to do in docs") && strings.Contains(text, " to choose in docs"); isBoth {
			t.Fatalf("seed %d: something is to be chosen beside steps:\n%s", seed, text)
		}
		found["another audit"] += strings.Count(text, "as another audit says")
	}
	if found["to do in"] < 25 || found["to choose in"] < 5 || found["another audit"] < 5 {
		t.Error("too few entries of a kind:", found)
	}
}

// adviceIn gives what each entry of a folder tells to do.
func adviceIn(folder *Folder) [][]string {
	var advice [][]string
	for _, file := range folder.Files {
		advice = append(advice, file.Advice)
	}
	for _, group := range folder.Groups {
		advice = append(advice, group.Advice)
	}
	return advice
}

// randomModes gives a name's permissions where they differ: now and then on a disk from what is recorded.
func randomModes(random *rand.Rand, row []*part.Name) []finding.Bits {
	bits, differ := make([]finding.Bits, len(row)), false
	for place, at := range row {
		if at == nil || at.Own == nil || at.Own.Deleted {
			continue
		}
		bits[place] = finding.Bits{Has: true, Index: 0o644, OnDisk: at.Disk != nil}
		if at.Disk != nil {
			bits[place].Disk = []uint32{0o644, 0o644, 0o600}[random.Intn(3)]
			differ = differ || bits[place].Disk != 0o644
		}
	}
	if !differ {
		return nil
	}
	return bits
}
