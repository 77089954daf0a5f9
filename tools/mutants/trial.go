package main

import (
	"bytes"
	"context"
	"encoding/json"
	"fmt"
	"os"
	"os/exec"
	"path/filepath"
	"strconv"
	"syscall"
	"time"
)

// What became of a mutant.
type outcome int

const (
	notCompiled outcome = iota // it is no program
	seen                       // a test fails
	hung                       // a test took too long, which counts as seen
	survived                   // all tests pass
	notReached                 // no test comes to it
)

// How many KiB of memory the tests may take: a mutant may make an endless list.
const memory = 6 << 20

// A bench tries mutants of one package.
type bench struct {
	packagePath string // as 'go test' has it
	directory   string
	room        string        // for what is made meanwhile
	longest     time.Duration // that the package's tests may take
	together    string        // the tests, compiled with all mutants that can be switched on
	isAlone     map[int]bool  // the places of those that can't
	reach       *reach
	told        bytes.Buffer // what the last test without a mutant told
}

// The number by which no mutant is switched on, and it is noted to which the tests come.
const unswitched = "-1"

// try tries a mutant by its place.
func (b *bench) try(tried mutant, place int) (outcome, error) {
	room := filepath.Join(b.room, strconv.Itoa(place))
	if err := os.MkdirAll(room, 0o700); err != nil {
		return notCompiled, err
	}
	defer os.RemoveAll(room)
	if b.isAlone[place] {
		return b.tryAlone(tried, room)
	}
	groups := b.reach.groups(place + 1)
	if len(groups) == 0 {
		return notReached, nil
	}
	for _, tests := range groups {
		if became := b.runs(b.together, room, longestOf(tests.took), strconv.Itoa(place+1), "", "-test.failfast", "-test.run", tests.pattern()); became != survived {
			return became, nil
		}
	}
	return survived, nil
}

// tryAlone compiles the package's tests with the mutant in its file's place, and runs them.
func (b *bench) tryAlone(tried mutant, room string) (outcome, error) {
	source, err := os.ReadFile(tried.file)
	if err != nil {
		return notCompiled, err
	}
	changed := filepath.Join(room, filepath.Base(tried.file))
	if err := os.WriteFile(changed, tried.mutated(source), 0o600); err != nil {
		return notCompiled, err
	}
	overlay := filepath.Join(room, "overlay.json")
	text, err := json.Marshal(map[string]map[string]string{"Replace": {tried.file: changed}})
	if err != nil {
		return notCompiled, err
	}
	if err := os.WriteFile(overlay, text, 0o600); err != nil {
		return notCompiled, err
	}
	tests := filepath.Join(room, "tests")
	if exec.Command("go", "test", "-overlay", overlay, "-vet=off", "-c", "-o", tests, b.packagePath).Run() != nil {
		return notCompiled, nil
	}
	return b.runs(tests, room, b.longest, "0", "", "-test.failfast"), nil
}

// runs runs compiled tests where they find their files, with the mutant of this number switched on, and says what became of it.
// What they come to goes into the log if there is one.
func (b *bench) runs(tests, room string, longest time.Duration, number, log string, words ...string) outcome {
	ending, cancel := context.WithTimeout(context.Background(), longest)
	defer cancel()
	limited := fmt.Sprintf(`ulimit -v %d; exec "$0" "$@"`, memory)
	running := exec.CommandContext(ending, "sh", append([]string{"-c", limited, tests}, words...)...)
	running.Dir = b.directory
	running.Env = append(os.Environ(), "TMPDIR="+room, "MUTANT_NOW="+number, "MUTANT_REACHED="+log)
	running.SysProcAttr = &syscall.SysProcAttr{Setpgid: true}
	if number == unswitched {
		b.told.Reset()
		running.Stdout = &b.told
	}
	err := running.Run()
	if running.Process != nil {
		syscall.Kill(-running.Process.Pid, syscall.SIGKILL) // what it started and left
	}
	switch {
	case err == nil:
		return survived
	case ending.Err() != nil:
		return hung
	}
	return seen
}

// timeOf runs a package's tests as they are, which must pass, and gives how long they may take with a mutant.
func timeOf(path string) (time.Duration, error) {
	began := time.Now()
	told, err := exec.Command("go", "test", "-vet=off", "-count=1", path).CombinedOutput()
	if err != nil {
		return 0, fmt.Errorf("the tests of %s fail without a mutant: %s", path, told)
	}
	return longestOf(time.Since(began)), nil
}

// longestOf gives three times as long as tests took, and some seconds for a busy machine.
func longestOf(took time.Duration) time.Duration {
	return 3*took + 10*time.Second
}
