package main

import (
	"encoding/csv"
	"fmt"
	"os"
	"os/exec"
	"path/filepath"
	"sort"
	"strconv"
	"strings"
	"sync"
	"syscall"
	"time"
)

// The tables say to which places classes of cases on real devices come, and no Go test does. classes.csv has a row for each class, beyond.txt a line
// for each such place with the classes that come to it. A run goes on with what they say, and keeps them after each class.
type beyond struct {
	of        *several
	directory string // where the tables stand
	tests     string // the directory of the classes
	byGo      map[string]bool
	rows      map[string]row
	classes   map[string]map[string]bool // by a place to which no Go test comes
	guard     sync.Mutex
}

// A row is what is known of a class.
type row struct {
	date, ended string
	seconds     int
	places      int
}

// How long a class may take.
const longestOfClass = 25 * time.Minute

// tellBeyond runs Go's tests and then the classes that are asked for, MODULE:CLASS,.. or all 'rest' that have no row yet.
func tellBeyond(words, directory string, given asked) error {
	room, err := os.MkdirTemp("", "m")
	if err != nil {
		return err
	}
	defer os.RemoveAll(room)
	made := &beyond{directory: directory, tests: filepath.Join(directory, "../../auditor/test"), rows: map[string]row{}, classes: map[string]map[string]bool{}}
	if err := made.read(); err != nil {
		return err
	}
	classes, err := made.asked(words)
	if err != nil {
		return err
	}
	if made.of, err = loadSeveral(room, given.jobs, "syncthing-audit/..."); err != nil {
		return err
	}
	fmt.Printf("%d places\n", len(made.of.due))
	if made.byGo, err = made.of.ofGo(); err != nil {
		return err
	}
	fmt.Printf("Go's tests come to %d of them\n", len(made.byGo))
	made.rows[ofGo] = row{date: today(), ended: "passed", places: len(made.byGo)}
	made.forget()
	return made.run(classes, given)
}

const ofGo = "Go's tests"

func today() string { return time.Now().UTC().Format("2006-01-02") }

// asked gives the classes that are asked for.
func (b *beyond) asked(words string) ([]string, error) {
	if words != "rest" {
		return strings.Split(words, ","), nil
	}
	text, err := os.ReadFile(filepath.Join(b.tests, "classes.txt"))
	var classes []string
	for _, line := range strings.Split(strings.TrimSpace(string(text)), "\n") {
		class := strings.ReplaceAll(line, " ", ":")
		if _, has := b.rows[class]; !has {
			classes = append(classes, class)
		}
	}
	return classes, err
}

// forget forgets the places to which a Go test comes by now, and those that are there no more.
func (b *beyond) forget() {
	isThere := map[string]bool{}
	for _, place := range b.of.due {
		isThere[place.name] = true
	}
	for place := range b.classes {
		if b.byGo[place] || !isThere[place] {
			delete(b.classes, place)
		}
	}
}

// run runs classes, some side by side, each with a program of its own.
func (b *beyond) run(classes []string, given asked) error {
	var working sync.WaitGroup
	var first error
	waiting := make(chan string)
	for job := 0; job < given.jobs; job++ {
		bin := filepath.Join(b.of.room, "bin"+strconv.Itoa(job))
		if err := os.Mkdir(bin, 0o700); err != nil {
			return err
		}
		if err := b.of.build(bin); err != nil {
			return err
		}
		working.Add(1)
		go func() {
			defer working.Done()
			for class := range waiting {
				found, places, err := b.runOne(class, bin)
				b.guard.Lock()
				if err == nil {
					err = b.keep(class, found, places)
				}
				if first == nil {
					first = err
				}
				b.guard.Unlock()
			}
		}()
	}
	for _, class := range classes {
		if given.until.IsZero() || time.Now().Before(given.until) {
			waiting <- class
		}
	}
	close(waiting)
	working.Wait()
	return first
}

// runOne runs a class, and gives the places to which the programs came that it called.
func (b *beyond) runOne(class, bin string) (row, map[string]bool, error) {
	module, name, is := strings.Cut(class, ":")
	if !is {
		return row{}, nil, fmt.Errorf("a class is MODULE:CLASS: %s", class)
	}
	room, err := os.MkdirTemp(b.of.room, "class")
	if err != nil {
		return row{}, nil, err
	}
	defer os.RemoveAll(room)
	log := filepath.Join(room, "reached")
	if err := makeLog(log); err != nil {
		return row{}, nil, err
	}
	began := time.Now()
	running := exec.Command("python3", module+".py", name)
	running.Dir, running.SysProcAttr = b.tests, &syscall.SysProcAttr{Setsid: true}
	running.Env = append(os.Environ(), "SYNCTHING_AUDIT="+bin, "TMPDIR="+room, "MUTANT_NOW=-1", "MUTANT_REACHED="+log)
	ended := "passed"
	if err := running.Start(); err != nil {
		return row{}, nil, err
	}
	over := time.AfterFunc(longestOfClass, func() { syscall.Kill(-running.Process.Pid, syscall.SIGKILL) })
	if running.Wait() != nil {
		ended = "failed"
	}
	if !over.Stop() {
		ended = "hung"
	}
	own, err := filepath.Glob(filepath.Join(bin, "*.reached"))
	if err != nil {
		return row{}, nil, err
	}
	places, err := b.of.placesIn(append(own, log)...)
	for _, path := range own {
		os.Remove(path)
	}
	return row{date: today(), ended: ended, seconds: int(time.Since(began).Seconds()), places: len(places)}, places, err
}

// keep puts what is known of a class into the tables.
func (b *beyond) keep(class string, found row, places map[string]bool) error {
	b.rows[class] = found
	for _, classes := range b.classes {
		delete(classes, class)
	}
	for place := range places {
		if b.byGo[place] {
			continue
		}
		if b.classes[place] == nil {
			b.classes[place] = map[string]bool{}
		}
		b.classes[place][class] = true
	}
	beyond, alone := b.counts()
	fmt.Printf("%s %s in %d s: %d places, %d beyond Go's tests, %d alone\n", class, found.ended, found.seconds, found.places, beyond[class], alone[class])
	return b.write(beyond, alone)
}

// counts gives for each class to how many places it comes to which no Go test does, and to how many of these no other class.
func (b *beyond) counts() (beyond, alone map[string]int) {
	beyond, alone = map[string]int{}, map[string]int{}
	for _, classes := range b.classes {
		for class := range classes {
			beyond[class]++
			if len(classes) == 1 {
				alone[class]++
			}
		}
	}
	return beyond, alone
}

var columns = []string{"class", "date", "ended", "seconds", "places", "beyond Go's tests", "alone"}

// write writes both tables.
func (b *beyond) write(beyond, alone map[string]int) error {
	var text strings.Builder
	table := csv.NewWriter(&text)
	table.Write(columns)
	var classes []string
	for class := range b.rows {
		classes = append(classes, class)
	}
	sort.Slice(classes, func(i, j int) bool {
		one, other := classes[i], classes[j]
		if alone[one] != alone[other] {
			return alone[one] > alone[other]
		}
		return beyond[one] > beyond[other] || beyond[one] == beyond[other] && one < other
	})
	for _, class := range classes {
		of := b.rows[class]
		table.Write([]string{class, of.date, of.ended, strconv.Itoa(of.seconds), strconv.Itoa(of.places), strconv.Itoa(beyond[class]), strconv.Itoa(alone[class])})
	}
	table.Flush()
	var lines []string
	for place, classes := range b.classes {
		if len(classes) > 0 {
			lines = append(lines, place+"\t"+strings.Join(sorted(classes), " ")+"\n")
		}
	}
	sort.Strings(lines)
	if err := os.WriteFile(filepath.Join(b.directory, "beyond.txt"), []byte(strings.Join(lines, "")), 0o644); err != nil {
		return err
	}
	return os.WriteFile(filepath.Join(b.directory, "classes.csv"), []byte(text.String()), 0o644)
}

// read reads both tables. Only classes.csv is in git: without beyond.txt nothing is known of any class.
func (b *beyond) read() error {
	places, err := os.ReadFile(filepath.Join(b.directory, "beyond.txt"))
	if os.IsNotExist(err) {
		return nil
	}
	if err != nil {
		return err
	}
	for _, line := range strings.Split(string(places), "\n") {
		if place, classes, is := strings.Cut(line, "\t"); is {
			b.classes[place] = map[string]bool{}
			for _, class := range strings.Fields(classes) {
				b.classes[place][class] = true
			}
		}
	}
	return b.readRows()
}

func (b *beyond) readRows() error {
	text, err := os.ReadFile(filepath.Join(b.directory, "classes.csv"))
	if err != nil {
		return err
	}
	lines, err := csv.NewReader(strings.NewReader(string(text))).ReadAll()
	if err != nil {
		return err
	}
	for _, words := range lines[1:] {
		seconds, _ := strconv.Atoi(words[3])
		places, err := strconv.Atoi(words[4])
		if err != nil {
			return err
		}
		b.rows[words[0]] = row{date: words[1], ended: words[2], seconds: seconds, places: places}
	}
	return nil
}
