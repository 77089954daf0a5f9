package main

import (
	"encoding/csv"
	"fmt"
	"io"
	"os"
	"strconv"
	"strings"
	"time"
)

// What begins the path of each package, and results.csv leaves out.
const module = "syncthing-audit/"

// A figure is a row of results.csv: how many of so many mutants survived, and by which tests, as a day or a commit.
type figure struct {
	tests           string
	survived, tried int
}

// percent is how many of a hundred survived.
func (f figure) percent() float64 {
	return counts{survived: f.survived, seen: f.tried - f.survived}.share()
}

// readFigures reads the last row of each package.
func readFigures(from io.Reader) (map[string]figure, error) {
	rows, err := csv.NewReader(from).ReadAll()
	if err != nil || len(rows) == 0 {
		return nil, err
	}
	last := map[string]figure{}
	for _, row := range rows[1:] {
		read := figure{tests: row[1]}
		if _, err := fmt.Sscan(row[2]+" "+row[3], &read.survived, &read.tried); err != nil {
			return nil, fmt.Errorf("the row %q: %w", strings.Join(row, ","), err)
		}
		last[row[0]] = read
	}
	return last, nil
}

// figuresIn reads the last row of each package in a file.
func figuresIn(path string) (map[string]figure, error) {
	file, err := os.Open(path)
	if err != nil {
		return nil, err
	}
	defer file.Close()
	return readFigures(file)
}

// tellFigures prints of each package how many mutants it has, its last figure, of when that is, and whether at most so many of a hundred survived.
// It counts the packages of which that holds, of which it doesn't, and those without a figure.
func tellFigures(to io.Writer, figures map[string]figure, paths []string, most float64) (passed, failed, skipped int, err error) {
	fmt.Fprintf(to, "%-16s %7s  %-20s %-16s  %s\n", "package", "mutants", "survived", "tests of", "as asked")
	for _, path := range paths {
		count, err := countOf(path)
		if err != nil {
			return 0, 0, 0, err
		}
		name := strings.TrimPrefix(path, module)
		last, is := figures[name]
		told, asAsked := "not measured", "-"
		switch {
		case !is:
			skipped++
		case last.percent() <= most:
			asAsked = "yes"
			passed++
		default:
			asAsked = "no"
			failed++
		}
		if is {
			told = fmt.Sprintf("%d of %d, %.1f %%", last.survived, last.tried, last.percent())
		}
		fmt.Fprintf(to, "%-16s %7d  %-20s %-16s  %s\n", name, count, told, last.tests, asAsked)
	}
	return passed, failed, skipped, nil
}

// countOf counts a package's mutants.
func countOf(path string) (int, error) {
	of, err := load(path)
	if err != nil {
		return 0, err
	}
	all, err := of.mutants()
	return len(all), err
}

// record adds a package's figure to a file as results.csv.
func record(to, path string, of counts, given asked) error {
	file, err := os.OpenFile(to, os.O_APPEND|os.O_WRONLY, 0o644)
	if err != nil {
		return err
	}
	defer file.Close()
	row := csv.NewWriter(file)
	row.Write([]string{strings.TrimPrefix(path, module), time.Now().UTC().Format("2006-01-02 15:04"), strconv.Itoa(of.survived), strconv.Itoa(of.seen + of.survived),
		strconv.Itoa(of.same), noteOf(of, given)})
	row.Flush()
	return row.Error()
}

// noteOf says which mutants a figure is of.
func noteOf(of counts, given asked) string {
	note := "all"
	if given.sample > 0 && given.sample < of.all {
		note = fmt.Sprintf("seed %d", given.seed)
	}
	if of.hung > 0 {
		note += fmt.Sprintf("; %d hung", of.hung)
	}
	if of.left > 0 {
		note += fmt.Sprintf("; %d not begun", of.left)
	}
	return note
}
