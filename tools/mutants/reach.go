package main

import (
	"fmt"
	"os"
	"os/exec"
	"path/filepath"
	"strconv"
	"strings"
	"time"
)

// How long one test may take without a mutant.
const longestAlone = 10 * time.Minute

// A quick test is tried before all that take longer.
const quick = 300 * time.Millisecond

// On a busy machine a test counts as quick that takes at most this part of what all take.
const quickPart = 20

// reach is what a package's tests run through: for each mutant, by its number, the tests that come to it.
type reach struct {
	tests  []string
	took   map[string]time.Duration
	coming map[int][]string
}

// reachOf runs each test by itself, with no mutant switched on.
func (b *bench) reachOf() (*reach, error) {
	told, err := exec.Command(b.together, "-test.list", ".").Output()
	if err != nil {
		return nil, err
	}
	found := &reach{took: map[string]time.Duration{}, coming: map[int][]string{}}
	for _, name := range strings.Fields(string(told)) {
		if !strings.HasPrefix(name, "Test") && !strings.HasPrefix(name, "Fuzz") && !strings.HasPrefix(name, "Example") {
			continue
		}
		log := filepath.Join(b.room, "reached")
		if err := makeLog(log); err != nil {
			return nil, err
		}
		began := time.Now()
		if b.runs(b.together, b.room, longestAlone, unswitched, log, "-test.run", "^"+name+"$") != survived {
			return nil, fmt.Errorf("the test %s of %s fails without a mutant: %s", name, b.packagePath, b.told.String())
		}
		found.tests = append(found.tests, name)
		found.took[name] = time.Since(began)
		if err := found.note(name, log); err != nil {
			return nil, err
		}
	}
	return found, nil
}

// sum is how long all tests took, one after another.
func (r *reach) sum() time.Duration {
	var all time.Duration
	for _, took := range r.took {
		all += took
	}
	return all
}

// note notes the mutants that a test came to.
func (r *reach) note(name, log string) error {
	text, err := os.ReadFile(log)
	if err != nil {
		return err
	}
	for _, line := range strings.Fields(string(text)) {
		number, err := strconv.Atoi(line)
		if err != nil {
			return err
		}
		if of := r.coming[number]; len(of) == 0 || of[len(of)-1] != name { // several processes of a test may come there
			r.coming[number] = append(of, name)
		}
	}
	return os.Remove(log)
}

// makeLog makes the file in which it is noted to what a program comes, also where that becomes another user.
func makeLog(path string) error {
	if err := os.WriteFile(path, nil, 0o600); err != nil {
		return err
	}
	for directory := filepath.Dir(path); directory != filepath.Dir(directory) && directory != filepath.Clean(os.TempDir()); directory = filepath.Dir(directory) {
		if err := os.Chmod(directory, 0o711); err != nil {
			return err
		}
	}
	return os.Chmod(path, 0o666)
}

// groups gives the tests that come to a mutant, the quick ones first, and how long each group may take.
func (r *reach) groups(number int) []group {
	var short, long group
	most := quick
	if part := r.sum() / quickPart; part > most {
		most = part
	}
	for _, name := range r.coming[number] {
		to := &long
		if r.took[name] < most {
			to = &short
		}
		to.tests = append(to.tests, name)
		to.took += r.took[name]
	}
	var kept []group
	for _, each := range []group{short, long} {
		if len(each.tests) > 0 {
			kept = append(kept, each)
		}
	}
	return kept
}

type group struct {
	tests []string
	took  time.Duration
}

// pattern is what -test.run takes.
func (g group) pattern() string {
	return "^(" + strings.Join(g.tests, "|") + ")$"
}
