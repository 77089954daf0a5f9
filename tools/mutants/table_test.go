package main

import (
	"os"
	"path/filepath"
	"strings"
	"testing"
)

// Of a package's rows the last one counts, and what a run records is read again.
func TestTheLastFigureCounts(t *testing.T) {
	file := filepath.Join(t.TempDir(), "results.csv")
	if err := os.WriteFile(file, []byte("package,tests,survived,tried,in same.txt,note\nask,f0717e62,16,157,,\nask,2026-11-29,6,147,1,\"all, and more\"\n"), 0o600); err != nil {
		t.Fatal(err)
	}
	if err := record(file, module+"flags/render", counts{all: 90, seen: 37, hung: 1, survived: 3, same: 2, left: 8}, asked{sample: 50, seed: 7}); err != nil {
		t.Fatal(err)
	}
	if err := record(file, module+"bep", counts{all: 50, seen: 50}, asked{sample: 50, seed: 7}); err != nil {
		t.Fatal(err)
	}
	figures, err := figuresIn(file)
	if err != nil || len(figures) != 3 || figures["ask"] != (figure{"2026-11-29", 6, 147}) || figures["bep"].tried != 50 {
		t.Errorf("%+v, %v", figures, err)
	}
	if read := figures["flags/render"]; read.survived != 3 || read.tried != 40 || read.percent() != 7.5 {
		t.Errorf("%+v", read)
	}
	text, err := os.ReadFile(file)
	lines := strings.Split(strings.TrimSpace(string(text)), "\n")
	if err != nil || !strings.HasSuffix(lines[3], ",3,40,2,seed 7; 1 hung; 8 not begun") || !strings.HasSuffix(lines[4], ",0,50,0,all") {
		t.Errorf("%q, %v", lines, err)
	}
	if _, err := readFigures(strings.NewReader("package,tests,survived,tried,in same.txt,note\nask,f0717e62,many,157,,\n")); err == nil {
		t.Error("a figure that is no number is read")
	}
}

// A package is as asked where at most so many of a hundred survived; one without a figure is neither.
func TestTheTableOfFigures(t *testing.T) {
	t.Setenv("GO111MODULE", "off")
	t.Setenv("GOPATH", filepath.Join(t.TempDir(), "go"))
	var paths []string
	for _, name := range []string{"enough", "more", "none"} {
		directory := filepath.Join(os.Getenv("GOPATH"), "src", module, name)
		if err := os.MkdirAll(directory, 0o700); err != nil {
			t.Fatal(err)
		}
		if err := os.WriteFile(filepath.Join(directory, "a.go"), []byte("package a\n\nfunc is(a, b int) bool { return a < b }\n"), 0o600); err != nil {
			t.Fatal(err)
		}
		paths = append(paths, module+name)
	}
	var told strings.Builder
	passed, failed, skipped, err := tellFigures(&told, map[string]figure{"enough": {"now", 1, 20}, "more": {"then", 1, 19}}, paths, 5)
	if err != nil || passed != 1 || failed != 1 || skipped != 1 {
		t.Fatalf("%d, %d, %d, %v", passed, failed, skipped, err)
	}
	var lines []string
	for _, line := range strings.Split(told.String(), "\n") {
		lines = append(lines, strings.Join(strings.Fields(line), " "))
	}
	if all := strings.Join(lines, "\n"); all != "package mutants survived tests of as asked\nenough 2 1 of 20, 5.0 % now yes\nmore 2 1 of 19, 5.3 % then no\nnone 2 not measured -\n" {
		t.Errorf("%q", all)
	}
}
