package main

import (
	"go/token"
	"os"
	"path/filepath"
	"reflect"
	"strings"
	"testing"
)

// Each operator on the least source that has it: what changes, and what stands there then.
func TestEachOperatorMakesItsMutants(t *testing.T) {
	for _, row := range []struct {
		name, body string
		changes    []string
	}{
		{"the boundary and the answer of a comparison", "x := a < b", []string{"x := a <= b", "x := a >= b"}},
		{"equality", "x := a == b", []string{"x := a != b"}},
		{"and", "x := c && d", []string{"x := c || d"}},
		{"a condition", "if c {\n}", []string{"if !(c) {\n}"}},
		{"a call alone", "call()", []string{"_ = 0"}},
		{"a defer, and its call", "defer call()", []string{"_ = 0"}},
		{"an assignment; a definition stays", "x := y\nx = y", []string{"x := y\n_ = 0"}},
		{"continue", "for {\ncontinue\n}", []string{"for {\n_ = 0\n}"}},
		{"a number", "x := 41", []string{"x := 42"}},
		{"a constant", "x := true", []string{"x := false"}},
		{"neighbours that are names", "x := f(a, b)", []string{"x := f(b, a)"}},
		{"neighbours of which one is a call stay", "x := f(a, g())", nil},
		{"an error that is given on", "return err", []string{"return nil"}},
		{"neighbours of a symmetric function stay", "x := bytes.Equal(a, b)", nil},
		{"the room of a list, and not its length", "x := make([]int, 4, 8)", []string{"x := make([]int, 5, 8)"}},
		{"the room of a map", "x := make(map[int]int, 8)", nil},
		{"no number in a text", `x := "41"`, nil},
	} {
		changes, err := changesOf(t, row.body)
		if err != nil {
			t.Fatalf("%s: %v", row.name, err)
		}
		if !reflect.DeepEqual(changes, row.changes) {
			t.Errorf("%s: %q, not %q", row.name, changes, row.changes)
		}
	}
}

// changesOf gives the body of a function with each of its mutants.
func changesOf(t *testing.T, body string) ([]string, error) {
	const before, after = "package p\n\nfunc f() {\n", "\n}\n"
	file := filepath.Join(t.TempDir(), "p.go")
	source := []byte(before + body + after)
	if err := os.WriteFile(file, source, 0o600); err != nil {
		return nil, err
	}
	places := token.NewFileSet()
	read, err := readSource(places, file)
	var changes []string
	for _, found := range mutantsOf(places, read, nil, nil) {
		text := found.mutated(source)
		changes = append(changes, string(text[len(before):len(text)-len(after)]))
	}
	return changes, err
}

func TestAliveIsAPackageOfWhichTooManySurvive(t *testing.T) {
	if !(counts{seen: 19, survived: 1}).isEnough(5) || (counts{seen: 18, survived: 1}).isEnough(5) {
		t.Error("one of twenty is five of a hundred, and one of nineteen is more")
	}
}

func TestAMutantThatIsTheSameHasAReason(t *testing.T) {
	file := filepath.Join(t.TempDir(), "same.txt")
	for text, is := range map[string]bool{"": true, "# why\n\n": true, "p/a.go f: one more: 0\tnobody reads it\n": true, "p/a.go f: one more: 0\n": false,
		"p/a.go f: one more: 0\t \n": false} {
		if err := os.WriteFile(file, []byte(text), 0o600); err != nil {
			t.Fatal(err)
		}
		if _, err := readSame(file); (err == nil) != is {
			t.Errorf("%q: %v", text, err)
		}
	}
}

// A line of a package that names none of its mutants is stale; those of others, also of packages within it, aren't looked at.
func TestStaleLines(t *testing.T) {
	same := map[string]bool{"a/p/x.go f: one more: 0": true, "a/p/x.go f: one more: 1": true, "a/p/q/x.go f: one more: 0": true, "a/x.go f: one more: 0": true, "odd": true}
	if stale := staleOf("a/p", same, []keyed{{name: "a/p/x.go f: one more: 1"}}); !reflect.DeepEqual(stale, []string{"a/p/x.go f: one more: 0"}) {
		t.Errorf("%q", stale)
	}
}

// A sample is the same one each time, and another one by another seed.
func TestSamples(t *testing.T) {
	one := asked{turn: 1, turns: 1, sample: 10}
	other := one
	other.seed = 1
	if first := one.chosen(1000); len(first) != 10 || !reflect.DeepEqual(first, one.chosen(1000)) || reflect.DeepEqual(first, other.chosen(1000)) {
		t.Errorf("%v", first)
	}
}

// Each line of same.txt names a mutant that is there. It needs the packages' sources where 'go list' finds them, as 'run' sets it.
func TestEachLineNamesAMutant(t *testing.T) {
	same, err := readSame("same.txt")
	if err != nil {
		t.Fatal(err)
	}
	packages := map[string]bool{}
	for line := range same {
		file, _, _ := strings.Cut(line, " ")
		packages[filepath.Dir(file)] = true
	}
	for path := range packages {
		of, err := load(path)
		if err != nil {
			t.Skip(err)
		}
		all, err := of.mutants()
		if err != nil {
			t.Fatal(err)
		}
		for _, line := range staleOf(path, same, all) {
			t.Error(line)
		}
	}
}

// What a run prints of a mutant that survived or hung names it for the next run.
func TestSurvivorsAreReadAgain(t *testing.T) {
	file := filepath.Join(t.TempDir(), "output")
	text := "survived: /x/p.go:7: p/p.go f: operator <=: a < b\nsurvived, and no test comes to it: /x/q.go:9: p/q.go g: one more: 0 #2\n" +
		"hung: /x/p.go:7: p/p.go f: constant true: false\np: 5 mutants seen, 2 survived\n"
	if err := os.WriteFile(file, []byte(text), 0o600); err != nil {
		t.Fatal(err)
	}
	keys, err := readSurvivors(file)
	if expected := map[string]bool{"p/p.go f: operator <=: a < b": true, "p/q.go g: one more: 0 #2": true, "p/p.go f: constant true: false": true}; err != nil || !reflect.DeepEqual(keys, expected) {
		t.Errorf("%v, %v", keys, err)
	}
	if keys, err := readSurvivors(""); keys != nil || err != nil {
		t.Errorf("%v, %v", keys, err)
	}
}
