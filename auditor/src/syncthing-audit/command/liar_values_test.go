package command

import (
	"path/filepath"
	"strings"
	"testing"

	"syncthing-audit/fixture"
)

// lies are what a part may say in place of one of its values: it is another device, or one that nobody has heard of; it has heard of everything, or of
// nothing.
func lies() []string {
	return []string{asID(1), asID(2), asID(3), "0", "9223372036854775807", `"encrypted"`}
}

func asID(device byte) string { return `"` + idOf(device) + `"` }

// placesOfLies gives where the values of a text stand: of its head each one, and of its lines those of each field once.
func placesOfLies(t *testing.T, text string) [][2]int {
	places, seen, end := [][2]int{}, map[string]bool{}, strings.IndexByte(text, '\n')
	for _, place := range tokensOf(t, text) {
		field := text[strings.LastIndexAny(text[:place[0]], "{,[")+1 : place[0]]
		if place[0] < end || !seen[field] {
			places = append(places, place)
		}
		seen[field] = seen[field] || place[0] > end
	}
	return places
}

// Whatever one part says in place of any of its values, where there is an answer it tells the rot that another device tells of itself.
func TestNoValueOfAPartHidesAFaultOfAnother(t *testing.T) {
	fixture.UseAuditor(t)
	out := 0
	for called, make := range map[string]func(device byte) []*hostile{"stopped": stoppedParts, "running": runningParts, "observed": observedParts, "halved": halvedParts} {
		room, answered := t.TempDir(), 0
		parts := writtenParts(t, filepath.Join(room, "1"), make(1))
		liar := writtenParts(t, filepath.Join(room, "2"), make(2))
		for at, lying := range make(2) {
			text := lying.inLines(t)
			for _, place := range placesOfLies(t, text) {
				for _, lie := range lies() {
					writeZipped(t, liar[at], text[:place[0]]+lie+text[place[1]:])
					told, isAnswer := toldOf(append(append([]string{}, parts...), liar...))
					if !isAnswer {
						continue
					}
					answered++
					out += strings.Count(told[1], "by itself: folder docs on 1\n")
					if !strings.Contains(told[1], "StoreDiffers docs a on 1\n") {
						t.Errorf("%s: %s in place of %s: %s", called, lie, text[strings.LastIndexAny(text[:place[0]], "{,[")+1:place[1]], told[1])
					}
				}
			}
			lying.write(t, liar[at])
		}
		if answered < 50 {
			t.Errorf("%s: only %d parts have an answer", called, answered)
		}
	}
	if out == 0 {
		t.Error("no part leaves the other device out")
	}
}
