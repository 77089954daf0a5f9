package main

import (
	"bufio"
	"encoding/json"
	"fmt"
	"os"
	"os/exec"
	"path/filepath"
	"sort"
	"strconv"
	"strings"
	"sync"
)

// A several is all packages of the program, in which each mutant has a number of its own. None is ever switched on: what runs notes to which
// places it comes.
type several struct {
	paths   []string // as 'go list' has them
	room    string
	overlay string
	due     []keyed // by their numbers, of which the first is 1
}

// loadSeveral puts the mutants of packages into their places.
func loadSeveral(room string, jobs int, paths ...string) (*several, error) {
	told, err := exec.Command("go", append([]string{"list", "-f", "{{if .GoFiles}}{{.ImportPath}}{{end}}"}, paths...)...).Output()
	if err != nil {
		return nil, err
	}
	made := &several{paths: paths, room: room, overlay: filepath.Join(room, "all.json")}
	var packages []*loaded
	var dues [][]keyed
	for _, path := range strings.Fields(string(told)) {
		of, err := load(path)
		if err != nil {
			return nil, err
		}
		due, err := of.mutants()
		if err != nil {
			return nil, err
		}
		of.isOfSeveral, of.before = true, len(made.due)
		made.due = append(made.due, due...)
		packages, dues = append(packages, of), append(dues, due)
	}
	return made, made.write(packages, dues, jobs)
}

// write writes the files of each package with those of its mutants with which it is compiled, and an overlay of all these.
func (s *several) write(packages []*loaded, dues [][]keyed, jobs int) error {
	var guard sync.Mutex
	var working sync.WaitGroup
	var first error
	all := map[string]string{}
	room := make(chan bool, jobs)
	for i := range packages {
		working.Add(1)
		room <- true
		go func(of *loaded, due []keyed) {
			defer working.Done()
			replaced, err := s.writeOne(of, due)
			guard.Lock()
			defer guard.Unlock()
			for own, other := range replaced {
				all[own] = other
			}
			if first == nil {
				first = err
			}
			<-room
		}(packages[i], dues[i])
	}
	working.Wait()
	text, err := json.Marshal(map[string]map[string]string{"Replace": all})
	if err == nil {
		err = os.WriteFile(s.overlay, text, 0o600)
	}
	if first != nil {
		err = first
	}
	return err
}

// writeOne writes the files of a package, and gives what is in the place of which.
func (s *several) writeOne(of *loaded, due []keyed) (map[string]string, error) {
	room := filepath.Join(s.room, "of", strings.ReplaceAll(of.path, "/", "."))
	if err := os.MkdirAll(room, 0o700); err != nil {
		return nil, err
	}
	made, _, err := together(of, due, room, func(overlay, to string) *exec.Cmd {
		return exec.Command("go", "build", "-overlay", overlay, "-gcflags=-e", "-o", to, of.path)
	})
	if err != nil || made == "" {
		return nil, err // its own files serve
	}
	var overlay struct{ Replace map[string]string }
	text, err := os.ReadFile(filepath.Join(room, "together.json"))
	if err == nil {
		err = json.Unmarshal(text, &overlay)
	}
	return overlay.Replace, err
}

// build builds the programs that classes call into a directory.
func (s *several) build(directory string) error {
	told, err := exec.Command("go", "build", "-overlay", s.overlay, "-o", directory+"/", "syncthing-audit", "syncthing-audit/sample", "syncthing-audit/overwire").CombinedOutput()
	if err != nil {
		err = fmt.Errorf("the program isn't built: %s", told)
	}
	return err
}

// ofGo gives the places to which Go's tests come.
func (s *several) ofGo() (map[string]bool, error) {
	log := filepath.Join(s.room, "go.reached")
	running := exec.Command("go", append([]string{"test", "-overlay", s.overlay, "-vet=off", "-count=1"}, s.paths...)...)
	running.Env = append(os.Environ(), "MUTANT_NOW=-1", "MUTANT_REACHED="+log)
	if told, err := running.CombinedOutput(); err != nil {
		fmt.Fprintf(os.Stderr, "mutants: not all Go tests pass with their places noted: %s\n", failing(string(told)))
	}
	return s.placesIn(log)
}

// failing gives the lines that say which tests failed.
func failing(told string) string {
	var lines []string
	for _, line := range strings.Split(told, "\n") {
		if strings.Contains(line, "FAIL") {
			lines = append(lines, strings.TrimSpace(line))
		}
	}
	return strings.Join(lines, "; ")
}

// placesIn gives the places whose numbers stand in logs.
func (s *several) placesIn(logs ...string) (map[string]bool, error) {
	found := map[string]bool{}
	for _, log := range logs {
		file, err := os.Open(log)
		if os.IsNotExist(err) {
			continue
		}
		if err != nil {
			return nil, err
		}
		lines := bufio.NewScanner(file)
		for lines.Scan() {
			number, err := strconv.Atoi(lines.Text())
			if err == nil && number > 0 && number <= len(s.due) { // a program that was ended may have written half a line
				found[s.due[number-1].name] = true
			}
		}
		file.Close()
		if lines.Err() != nil {
			return nil, lines.Err()
		}
	}
	return found, nil
}

// sorted gives a set's texts, rising.
func sorted(set map[string]bool) []string {
	var all []string
	for text := range set {
		all = append(all, text)
	}
	sort.Strings(all)
	return all
}
