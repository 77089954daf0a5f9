package main

import (
	"encoding/json"
	"fmt"
	"os"
	"os/exec"
	"path/filepath"
	"regexp"
	"sort"
	"strconv"
)

// How often mutants are left out with which the package isn't compiled, before all are compiled alone.
const tries = 20

// What switches a mutant on stands in a file of its own beside the package's.
const switches = `

import (
	mutantOS "os"
	mutantNumber "strconv"
	mutantAtomic "sync/atomic"
)

var mutantNow = func() int {
	if number, err := mutantNumber.Atoi(mutantOS.Getenv("MUTANT_NOW")); err == nil {
		return number
	}
	return mutantElse
}()

func mutantIs(number int) bool {
	if mutantNow < 0 {
		mutantReached(number)
	}
	return mutantNow == number
}

func mutantReached(number int) {
	if mutantAtomic.LoadUint32(&mutantHad[number]) != 0 || mutantAtomic.SwapUint32(&mutantHad[number], 1) != 0 {
		return
	}
	log := mutantOS.Getenv("MUTANT_REACHED")
	if own, err := mutantOS.Executable(); log == "" && err == nil {
		log = own + ".reached"
	}
	file, err := mutantOS.OpenFile(log, mutantOS.O_APPEND|mutantOS.O_CREATE|mutantOS.O_WRONLY, 0o600)
	if err == nil {
		file.WriteString(mutantNumber.Itoa(number) + "\n")
		file.Close()
	}
}

func mutantPick[T any](number int, other, own T) T {
	if mutantIs(number) {
		return other
	}
	return own
}

func mutantMore[T ~int | ~int8 | ~int16 | ~int32 | ~int64 | ~uint | ~uint8 | ~uint16 | ~uint32 | ~uint64 | ~uintptr | ~float32 | ~float64](number int, own T) T {
	if mutantIs(number) {
		return own + 1
	}
	return own
}

func mutantNil[T any](number int, own T) T {
	if mutantIs(number) {
		var none T
		return none
	}
	return own
}
`

// An insertion is a text that goes into a source at a place.
type insertion struct {
	at    int
	opens bool
	other int // the other end of what is wrapped
	order int
	text  string
}

// insertionsOf gives what goes into one file for these mutants, by the number of each, in the order of their places. Where two
// begin at one place, the longer is the outer one; where they are of the same piece, the earlier is.
func insertionsOf(file string, all []keyed, isAlone map[int]bool, first int) []insertion {
	var put []insertion
	for place, found := range all {
		if found.file != file || isAlone[place] {
			continue
		}
		for _, piece := range found.wraps {
			put = append(put, insertion{piece.from, true, piece.to, place, piece.numbered(first + place)},
				insertion{piece.to, false, piece.from, place, piece.after})
		}
	}
	sort.SliceStable(put, func(i, j int) bool { return put[i].isBefore(put[j]) })
	return put
}

func (i insertion) isBefore(other insertion) bool {
	switch {
	case i.at != other.at:
		return i.at < other.at
	case i.opens != other.opens:
		return !i.opens
	case i.other != other.other:
		return i.other > other.other
	case i.opens:
		return i.order < other.order
	}
	return i.order > other.order
}

// withAll gives a file's source with these insertions.
func withAll(source []byte, put []insertion) []byte {
	var all []byte
	from := 0
	for _, piece := range put {
		all = append(append(all, source[from:piece.at]...), piece.text...)
		from = piece.at
	}
	return append(all, source[from:]...)
}

// compiledTests gives what compiles a package's tests.
func compiledTests(path string) func(overlay, to string) *exec.Cmd {
	return func(overlay, to string) *exec.Cmd {
		return exec.Command("go", "test", "-overlay", overlay, "-vet=off", "-gcflags=-e", "-c", "-o", to, path)
	}
}

// together compiles the package's tests, or a program, once with all mutants that can be switched on. Those with which it isn't compiled are
// compiled alone later, as those are that have no switch: 'isAlone' has their places.
func together(of *loaded, all []keyed, room string, compile func(overlay, to string) *exec.Cmd) (tests string, isAlone map[int]bool, err error) {
	isAlone = map[int]bool{}
	for place, found := range all {
		if len(found.wraps) == 0 {
			isAlone[place] = true
		}
	}
	tests = filepath.Join(room, "together")
	for try := 0; try < tries; try++ {
		overlay, err := writeAll(of, all, isAlone, room)
		if err != nil {
			return "", nil, err
		}
		told, err := compile(overlay, tests).CombinedOutput()
		if err == nil {
			return tests, isAlone, nil
		}
		if !leaveOut(string(told), all, isAlone) {
			fmt.Fprintf(os.Stderr, "mutants: %s isn't compiled with all mutants together, so each is compiled alone: %s\n", of.path, told)
			break
		}
	}
	for place := range all {
		isAlone[place] = true
	}
	return "", isAlone, nil
}

// writeAll writes the files with all mutants, and the overlay that puts them in place of the package's own.
func writeAll(of *loaded, all []keyed, isAlone map[int]bool, room string) (string, error) {
	replace := map[string]string{}
	write := func(own string, text []byte) error {
		replace[own] = filepath.Join(room, filepath.Base(own))
		return os.WriteFile(replace[own], text, 0o600)
	}
	for _, file := range of.files {
		if err := write(file.path, withAll(file.text, insertionsOf(file.path, all, isAlone, of.first()))); err != nil {
			return "", err
		}
	}
	had := fmt.Sprintf("\nconst mutantElse = %d\n\nvar mutantHad [%d]uint32\n", of.unsaid(), of.first()+len(all))
	if err := write(filepath.Join(of.directory, "mutant_switches.go"), []byte("package "+of.name+switches+had)); err != nil {
		return "", err
	}
	text, err := json.Marshal(map[string]map[string]string{"Replace": replace})
	if err != nil {
		return "", err
	}
	overlay := filepath.Join(room, "together.json")
	return overlay, os.WriteFile(overlay, text, 0o600)
}

var faultyLine = regexp.MustCompile(`(?m)([^/\s:]+\.go):(\d+):`)

// leaveOut leaves out the mutants of the lines with which the compiler finds fault, and says whether there was one.
func leaveOut(told string, all []keyed, isAlone map[int]bool) bool {
	isFaulty := map[string]bool{}
	for _, match := range faultyLine.FindAllStringSubmatch(told, -1) {
		isFaulty[match[1]+":"+match[2]] = true
	}
	before := len(isAlone)
	for place, found := range all {
		if isFaulty[filepath.Base(found.file)+":"+strconv.Itoa(found.line)] {
			isAlone[place] = true
		}
	}
	return len(isAlone) > before
}
