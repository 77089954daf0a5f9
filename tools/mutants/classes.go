package main

import (
	"fmt"
	"os"
	"os/exec"
	"path/filepath"
	"sort"
	"strconv"
	"strings"
	"sync"
	"syscall"
	"time"
)

// A table says for which mutants of a package each class of cases on real devices fails. The program is built once with all mutants that can be
// switched on. Each class runs once with none, which says to which of them it comes, and then once for each of these that is tried.
type table struct {
	of      *loaded
	due     []keyed
	room    string
	tests   string // the directory of the classes
	isAlone map[int]bool
	classes []*class
}

// A class is a module of the tests and a class of it.
type class struct {
	module, name string
	took         time.Duration
	comes        map[int]bool // the numbers of the mutants to which it comes
	failed       []int        // the places of those for which it fails
}

func (c *class) String() string { return c.module + " " + c.name }

// tabulate prints the table of these classes, each MODULE:CLASS, for a package.
func tabulate(path, classes string, given asked) error {
	room, err := os.MkdirTemp("", "m")
	if err != nil {
		return err
	}
	defer os.RemoveAll(room)
	made := &table{room: room}
	if made.of, err = load(path); err != nil {
		return err
	}
	made.tests = filepath.Join(made.of.directory, strings.Repeat("../", strings.Count(path, "/")+2)+"test")
	for _, word := range strings.Split(classes, ",") {
		module, name, is := strings.Cut(word, ":")
		if !is {
			return fmt.Errorf("--classes are MODULE:CLASS,..: %s", word)
		}
		made.classes = append(made.classes, &class{module: module, name: name, comes: map[int]bool{}})
	}
	if made.due, err = made.of.mutants(); err == nil {
		err = made.build()
	}
	if err == nil {
		err = made.reach()
	}
	if err != nil {
		return err
	}
	made.try(given)
	made.print()
	return nil
}

// build builds the programs that the classes call.
func (t *table) build() error {
	program := filepath.Join(t.room, "bin", "syncthing-audit")
	if err := os.Mkdir(filepath.Dir(program), 0o700); err != nil {
		return err
	}
	var built string
	var err error
	built, t.isAlone, err = together(t.of, t.due, t.room, func(overlay, _ string) *exec.Cmd {
		return exec.Command("go", "build", "-overlay", overlay, "-gcflags=-e", "-o", program, "syncthing-audit")
	})
	if err == nil && built == "" {
		err = fmt.Errorf("the program isn't built with all mutants of %s together", t.of.path)
	}
	for _, other := range []string{"syncthing-audit/sample", "syncthing-audit/overwire"} {
		if err == nil {
			err = exec.Command("go", "build", "-o", filepath.Dir(program), other).Run()
		}
	}
	return err
}

// runs runs a class with the mutant of this number, and says whether it passes in time.
func (t *table) runs(one *class, number string, longest time.Duration) bool {
	room, err := os.MkdirTemp(t.room, "class")
	if err != nil {
		return false
	}
	defer os.RemoveAll(room)
	running := exec.Command("python3", one.module+".py", one.name)
	running.Dir, running.SysProcAttr = t.tests, &syscall.SysProcAttr{Setsid: true}
	running.Env = append(os.Environ(), "SYNCTHING_AUDIT="+filepath.Join(t.room, "bin"), "TMPDIR="+room, "MUTANT_NOW="+number, "MUTANT_REACHED="+t.log(one))
	if running.Start() != nil {
		return false
	}
	over := time.AfterFunc(longest, func() { syscall.Kill(-running.Process.Pid, syscall.SIGKILL) })
	defer over.Stop()
	return running.Wait() == nil
}

func (t *table) log(one *class) string { return filepath.Join(t.room, one.module+"."+one.name) }

// reach runs each class with no mutant, which it must pass, and notes to which it comes.
func (t *table) reach() error {
	for _, one := range t.classes {
		began := time.Now()
		if !t.runs(one, "-1", longestAlone) {
			return fmt.Errorf("the class %v fails without a mutant", one)
		}
		one.took = time.Since(began)
		text, err := os.ReadFile(t.log(one))
		if err != nil && !os.IsNotExist(err) {
			return err
		}
		for _, line := range strings.Fields(string(text)) {
			number, err := strconv.Atoi(line)
			if err != nil {
				return err
			}
			one.comes[number] = true
		}
		fmt.Printf("%v comes to %d of %d mutants in %v\n", one, len(one.comes), len(t.due), one.took.Round(time.Second))
	}
	return nil
}

// try tries the chosen mutants with each class that comes to them, some side by side.
func (t *table) try(given asked) {
	var guard sync.Mutex
	var working sync.WaitGroup
	room := make(chan bool, given.jobs)
	for _, place := range given.chosen(len(t.due)) {
		if given.same[t.due[place].name] || t.isAlone[place] {
			continue
		}
		for _, one := range t.classes {
			if !one.comes[place+1] {
				continue
			}
			working.Add(1)
			room <- true
			go func(one *class, place int) {
				defer working.Done()
				if !t.runs(one, strconv.Itoa(place+1), longestOf(one.took)) {
					guard.Lock()
					one.failed = append(one.failed, place)
					guard.Unlock()
				}
				<-room
			}(one, place)
		}
	}
	working.Wait()
}

// print prints for each mutant which classes fail for it, and for each class for how many it does, and for how many it alone.
func (t *table) print() {
	failing := map[int][]*class{}
	for _, one := range t.classes {
		for _, place := range one.failed {
			failing[place] = append(failing[place], one)
		}
	}
	var places []int
	for place := range failing {
		places = append(places, place)
	}
	sort.Ints(places)
	alone := map[*class]int{}
	for _, place := range places {
		if len(failing[place]) == 1 {
			alone[failing[place][0]]++
		}
		fmt.Printf("%s: seen by %v\n", t.due[place].name, failing[place])
	}
	fmt.Println("class\tcomes to\tfails for\talone for")
	for _, one := range t.classes {
		fmt.Printf("%v\t%d\t%d\t%d\n", one, len(one.comes), len(one.failed), alone[one])
	}
}
