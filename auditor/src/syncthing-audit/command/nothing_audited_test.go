package command

import (
	"encoding/json"
	"fmt"
	"io"
	"math/rand"
	"path/filepath"
	"strings"
	"testing"

	"syncthing-audit/choice"
	"syncthing-audit/exit"
	"syncthing-audit/fixture"
	"syncthing-audit/part"
	"syncthing-audit/summary"
)

// unaudited gives what two devices have of a name so that nobody can compare it: it is out at one of them at least. What is out
// has an own record or not.
func unaudited(random *rand.Rand, name string, sequence int64, isOfLooks bool) [2]*part.Name {
	both := [2]*part.Name{hostileFile(name, sequence, 1), hostileFile(name, sequence, 1)}
	kind := part.Kinds[random.Intn(len(part.Kinds))]
	for _, device := range [][]int{{0}, {1}, {0, 1}}[random.Intn(3)] {
		switch {
		case isOfLooks && random.Intn(2) == 0:
			both[device] = &part.Name{Name: part.Bytes(name), Moved: []string{part.MovedDisk}}
		case kind == part.Ignored:
			both[device].Own, both[device].Views = nil, nil
			both[device].Disk.Contents = nil
			both[device].Out = []part.LeftOut{{Kind: kind, Why: "it is ignored there by .stignore"}}
		default:
			both[device] = &part.Name{Name: part.Bytes(name), Out: []part.LeftOut{{Kind: kind, Why: "it isn't told"}}}
		}
	}
	return both
}

// partsOf writes the parts of two devices with these names: of stopped devices, or of both looks at running ones.
func partsOf(t *testing.T, isOfLooks bool, names choice.Names, all [][2]*part.Name) []string {
	room := t.TempDir()
	var paths []string
	for device := byte(1); device <= 2; device++ {
		parts := stoppedParts(device)[:1]
		if isOfLooks {
			parts = runningParts(device)
		}
		for look, written := range parts {
			var own []*part.Name
			for _, both := range all {
				name := *both[device-1]
				if look == 1 && name.Disk != nil {
					disk := *name.Disk
					disk.Contents = nil
					name.Disk = &disk
				}
				own = append(own, &name)
			}
			written.Head.Names, written.Head.Folders[0].Paused, written.Head.Folders[0].PausedDevices = names, false, nil
			written.Head.Folders[0].Writers = nil
			written.Head.Others, written.Head.Version = []part.Other{}, written.Head.DueVersion()
			written.Lines = linesOf(own...)
		}
		paths = append(paths, writtenParts(t, filepath.Join(room, fmt.Sprint(device)), parts)...)
	}
	return paths
}

// Where nothing was compared no form says that all is in step, whatever is left out. With one name that is compared, it is said.
func TestWhereNothingIsAuditedNothingIsInStep(t *testing.T) {
	fixture.UseAuditor(t)
	statuses := map[int]int{}
	for seed := int64(1); seed <= 24; seed++ {
		random := rand.New(rand.NewSource(seed))
		isOfLooks := seed%2 == 0
		var all [][2]*part.Name
		for _, name := range []string{"a", "b", "c"}[:random.Intn(4)] {
			all = append(all, unaudited(random, name, int64(len(all)+1), isOfLooks))
		}
		names := []choice.Names{{}, {}, {Prefix: "zz"}, {Slice: 3, Slices: 7}}[random.Intn(4)]
		if !names.IsAll() {
			all = nil
		}
		leaveOut := [][]string{part.Kinds, {part.Kinds[random.Intn(len(part.Kinds))]}, nil}[random.Intn(3)]
		for _, form := range sortedForms {
			status, output, log := checked(partsOf(t, isOfLooks, names, all), leaveOut, form)
			statuses[status]++
			if status == exit.Done || isSettled(output, form) {
				t.Fatalf("seed %d, %q, %v: status %d:\n%s%s", seed, form, leaveOut, status, output, log)
			}
		}
		if !names.IsAll() {
			continue
		}
		all = append(all, [2]*part.Name{hostileFile("z", 9, 1), hostileFile("z", 9, 1)})
		status, output, log := checked(partsOf(t, isOfLooks, names, all), part.Kinds, sortedForms[random.Intn(3)])
		statuses[status]++
		if status != exit.Done && status != exit.Partial {
			t.Fatalf("seed %d: a name was compared: status %d:\n%s%s", seed, status, output, log)
		}
	}
	for _, status := range []int{exit.Done, exit.Refused, exit.Partial} {
		if statuses[status] == 0 {
			t.Errorf("no answer has status %d: %v", status, statuses)
		}
	}
}

var sortedForms = []string{"", "--json", "--lines"}

// checked checks parts in a form, with these kinds left out.
func checked(parts, leaveOut []string, form string) (int, string, string) {
	words := append([]string{"check"}, strings.Fields(form)...)
	if leaveOut != nil {
		words = append(words, "--leave-out", strings.Join(leaveOut, ","))
	}
	var output, log strings.Builder
	status := Run(append(words, parts...), &output, &log)
	return status, output.String(), log.String()
}

// isSettled says whether an answer says that all is in step, and not only as far as audited.
func isSettled(output, form string) bool {
	first, _, _ := strings.Cut(output, "\n")
	switch form {
	case "--json":
		var told struct{ Verdict string }
		err := json.NewDecoder(strings.NewReader(output)).Decode(&told)
		return err != io.EOF && told.Verdict == summary.InStep
	case "--lines":
		return first == "settled"
	}
	return strings.HasPrefix(output, summary.InStep+"\n") || strings.HasPrefix(output, summary.InStep+".")
}
