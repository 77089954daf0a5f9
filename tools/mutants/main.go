// Mutants says which bugs a package's tests don't see. It changes one place of the package at a time, by Go's own syntax tree,
// and runs the package's tests. No file is changed: the compiler is given the changed files in place of the others. It compiles
// the tests once with nearly all mutants, each behind a switch, and runs for each mutant the tests that come to it.
//
//	tools/mutants/run [--turn K/N] [--sample N [--seed S]] [--seconds S] [--jobs N] PACKAGE..
//	tools/mutants/run --again FILE PACKAGE..    only those that an earlier run, whose output this is, says survived
//	tools/mutants/run --classes MODULE:CLASS,.. [--sample N] PACKAGE..    what classes of real devices fail for (classes.go)
//	tools/mutants/run --beyond rest [--seconds S] [--jobs N]    where classes of real devices come, and no Go test does (beyond.go)
//	tools/mutants/run --table [PACKAGE..]    the last figure of each package in results.csv, and whether it is as asked (table.go)
//
// With --record, each package's figure goes into results.csv.
//
// Each mutant that all tests let pass is printed with file, line and change, and each for which they took too long: that counts as seen, but on a
// busy machine may be chance, and --again tries it, too. One that stands in same.txt, with the reason why
// nobody could see it, isn't counted. A line there of a package that is tried, and that names none of its mutants, has failed.
// The last line is 'N passed, M failed'. A mutant that a test sees has passed.
package main

import (
	"bufio"
	"flag"
	"fmt"
	"math/rand"
	"os"
	"path/filepath"
	"regexp"
	"sort"
	"strings"
	"sync"
	"time"
)

type asked struct {
	turn, turns int
	sample      int
	seed        int64 // another one chooses another sample
	until       time.Time
	jobs        int
	most        float64 // how many of a hundred mutants may survive
	same        map[string]bool
	again       map[string]bool // only these; all where it is nothing
}

func main() {
	turn := flag.String("turn", "1/1", "only each N-th mutant, from the K-th on")
	sample := flag.Int("sample", 0, "so many mutants of each package, chosen by chance; 0 is all")
	seed := flag.Int64("seed", 0, "another one chooses another sample")
	seconds := flag.Int("seconds", 0, "begin no mutant after so many seconds")
	jobs := flag.Int("jobs", 2, "how many at once")
	most := flag.Float64("most", 5, "how many of a hundred mutants may survive")
	classes := flag.String("classes", "", "in place of Go's tests, these classes of auditor/test: MODULE:CLASS,..")
	beyond := flag.String("beyond", "", "to which places these classes come and no Go test does: MODULE:CLASS,.., or rest: all of which that isn't known")
	same := flag.String("same", "", "the file of mutants that are the same program")
	table := flag.String("table", "", "the file of figures, of which the last one of each package is told")
	recorded := flag.String("record", "", "the file of figures, to which those of this run are added")
	again := flag.String("again", "", "the output of an earlier run: only the mutants that survived it")
	flag.Parse()
	given := asked{sample: *sample, seed: *seed, jobs: *jobs, most: *most}
	if _, err := fmt.Sscanf(*turn, "%d/%d", &given.turn, &given.turns); err != nil || given.turn < 1 || given.turn > given.turns {
		fail(fmt.Errorf("--turn is K/N, with K from 1 to N"))
	}
	if *seconds > 0 {
		given.until = time.Now().Add(time.Duration(*seconds) * time.Second)
	}
	var err error
	if given.same, err = readSame(*same); err != nil {
		fail(err)
	}
	if given.again, err = readSurvivors(*again); err != nil {
		fail(err)
	}
	if *recorded != "" && (given.again != nil || given.turns > 1) {
		fail(fmt.Errorf("--record goes with a sample, or with all mutants"))
	}
	if *table != "" {
		figures, err := figuresIn(*table)
		if err != nil {
			fail(err)
		}
		passed, failed, skipped, err := tellFigures(os.Stdout, figures, flag.Args(), given.most)
		if err != nil {
			fail(err)
		}
		end(passed, failed, skipped)
		return
	}
	if *beyond != "" {
		if err := tellBeyond(*beyond, filepath.Dir(*same), given); err != nil {
			fail(err)
		}
		return
	}
	if *classes != "" {
		for _, path := range flag.Args() {
			if err := tabulate(path, *classes, given); err != nil {
				fail(err)
			}
		}
		return
	}
	passed, failed, skipped := 0, 0, 0
	for _, path := range flag.Args() {
		counts, err := judge(path, given)
		if err != nil {
			fail(err)
		}
		skipped += counts.left
		passed += counts.seen
		failed += counts.stale
		if !counts.isEnough(given.most) {
			failed += counts.survived
		}
		fmt.Printf("%s: %d mutants in all: %d seen, of these %d hung, %d survived (%.1f %%), %d the same, %d not compiled, %d not begun\n", path, counts.all, counts.seen,
			counts.hung, counts.survived, counts.share(), counts.same, counts.notCompiled, counts.left)
		if *recorded != "" {
			if err := record(*recorded, path, counts, given); err != nil {
				fail(err)
			}
		}
	}
	end(passed, failed, skipped)
}

// end prints the last line, and ends with a failure where there was one.
func end(passed, failed, skipped int) {
	fmt.Printf("%d passed, %d failed", passed, failed)
	if skipped > 0 {
		fmt.Printf(", %d skipped", skipped)
	}
	fmt.Println()
	if failed > 0 {
		os.Exit(1)
	}
}

func fail(err error) {
	fmt.Fprintln(os.Stderr, "mutants:", err)
	os.Exit(2)
}

// readSame reads the keys of mutants that nobody could see; a line is a key, a tab and the reason.
func readSame(path string) (map[string]bool, error) {
	keys := map[string]bool{}
	if path == "" {
		return keys, nil
	}
	file, err := os.Open(path)
	if err != nil {
		return nil, err
	}
	defer file.Close()
	lines := bufio.NewScanner(file)
	for number := 1; lines.Scan(); number++ {
		line := lines.Text()
		if line == "" || strings.HasPrefix(line, "#") {
			continue
		}
		key, reason, has := strings.Cut(line, "\t")
		if !has || strings.TrimSpace(reason) == "" {
			return nil, fmt.Errorf("%s:%d: a line is a mutant, a tab and the reason", path, number)
		}
		keys[key] = true
	}
	return keys, lines.Err()
}

// readSurvivors reads the keys of the mutants that a run's output says survived or hung; nothing where no file is named.
func readSurvivors(path string) (map[string]bool, error) {
	if path == "" {
		return nil, nil
	}
	text, err := os.ReadFile(path)
	keys := map[string]bool{}
	for _, line := range strings.Split(string(text), "\n") {
		if found := survivor.FindStringSubmatch(line); found != nil {
			keys[found[1]] = true
		}
	}
	return keys, err
}

// A survivor's line, as counts.count prints it.
var survivor = regexp.MustCompile(`^(?:survived|hung).*?\.go:\d+: (.*)$`)

// counts is how many mutants of a package had which outcome.
type counts struct{ all, seen, hung, survived, same, notCompiled, left, stale int }

// isEnough says whether so few survived that the package counts as tested.
func (c counts) isEnough(most float64) bool {
	return float64(c.survived)*100 <= most*float64(c.seen+c.survived)
}

// share is how many of a hundred survived.
func (c counts) share() float64 {
	if c.seen+c.survived == 0 {
		return 0
	}
	return 100 * float64(c.survived) / float64(c.seen+c.survived)
}

// judge tries a package's mutants whose turn it is.
func judge(path string, given asked) (counts, error) {
	room, err := os.MkdirTemp("", "m")
	if err != nil {
		return counts{}, err
	}
	defer os.RemoveAll(room)
	of, err := load(path)
	if err != nil {
		return counts{}, err
	}
	due, err := of.mutants()
	if err != nil {
		return counts{}, err
	}
	on, err := benchOf(of, due, room)
	if err != nil {
		return counts{}, err
	}
	counts, err := tryAll(on, due, given)
	counts.all = len(due)
	for _, line := range staleOf(path, given.same, due) {
		counts.stale++
		fmt.Printf("same.txt has no mutant of that name: %s\n", line)
	}
	return counts, err
}

// staleOf gives what same.txt has of a package and none of its mutants is, rising.
func staleOf(path string, same map[string]bool, all []keyed) []string {
	isThere := map[string]bool{}
	for _, found := range all {
		isThere[found.name] = true
	}
	var stale []string
	for line := range same {
		file, _, _ := strings.Cut(line, " ")
		if file[:strings.LastIndex(file, "/")+1] == path+"/" && !isThere[line] {
			stale = append(stale, line)
		}
	}
	sort.Strings(stale)
	return stale
}

// benchOf compiles the package's tests with all mutants, and finds which test comes to which.
func benchOf(of *loaded, due []keyed, room string) (*bench, error) {
	on := &bench{packagePath: of.path, directory: of.directory, room: room}
	var err error
	if on.together, on.isAlone, err = together(of, due, room, compiledTests(of.path)); err != nil {
		return nil, err
	}
	if on.together == "" {
		on.longest, err = timeOf(of.path)
		return on, err
	}
	if on.reach, err = on.reachOf(); err != nil {
		return nil, err
	}
	on.longest = longestOf(on.reach.sum())
	return on, nil
}

// A keyed is a mutant with the key that names it.
type keyed struct {
	mutant
	name string
}

// keysOf gives mutants their keys, each of which is there once.
func keysOf(path string, mutants []mutant) []keyed {
	var all []keyed
	count := map[string]int{}
	for _, found := range mutants {
		plain := found.key(0)
		all = append(all, keyed{found, path + "/" + found.key(count[plain])})
		count[plain]++
	}
	return all
}

// tryAll tries the mutants, some side by side, and prints those that survive.
func tryAll(on *bench, due []keyed, given asked) (counts, error) {
	var total counts
	var first error
	var guard sync.Mutex
	var working sync.WaitGroup
	places := make(chan int)
	for job := 0; job < given.jobs; job++ {
		working.Add(1)
		go func() {
			defer working.Done()
			for place := range places {
				tried := due[place]
				became, err := on.try(tried.mutant, place)
				guard.Lock()
				if err != nil && first == nil {
					first = err
				}
				total.count(tried, became)
				guard.Unlock()
			}
		}()
	}
	for _, place := range given.chosen(len(due)) {
		switch {
		case given.again != nil && !given.again[due[place].name]:
		case given.same[due[place].name]:
			total.same++
		case !given.until.IsZero() && time.Now().After(given.until):
			total.left++
		default:
			places <- place
		}
	}
	close(places)
	working.Wait()
	return total, first
}

// chosen gives the places of the mutants that are asked for, of so many. The same ones are chosen each time.
func (a *asked) chosen(count int) []int {
	var places []int
	for place := a.turn - 1; place < count; place += a.turns {
		places = append(places, place)
	}
	if a.sample == 0 || a.sample >= len(places) {
		return places
	}
	rand.New(rand.NewSource(int64(count)+a.seed)).Shuffle(len(places), func(i, j int) { places[i], places[j] = places[j], places[i] })
	places = places[:a.sample]
	sort.Ints(places)
	return places
}

// count counts an outcome, and prints a mutant that survived.
func (c *counts) count(tried keyed, became outcome) {
	switch became {
	case notCompiled:
		c.notCompiled++
	case seen:
		c.seen++
	case hung:
		c.seen++
		c.hung++
		fmt.Printf("hung: %s:%d: %s\n", tried.file, tried.line, tried.name)
	case survived:
		c.survived++
		fmt.Printf("survived: %s:%d: %s\n", tried.file, tried.line, tried.name)
	case notReached:
		c.survived++
		fmt.Printf("survived, and no test comes to it: %s:%d: %s\n", tried.file, tried.line, tried.name)
	}
}
