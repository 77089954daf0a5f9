package main

import (
	"encoding/json"
	"fmt"
	"go/ast"
	"go/importer"
	"go/parser"
	"go/token"
	"go/types"
	"io"
	"os"
	"os/exec"
	"path/filepath"
	"strings"
)

// A source is a source file of a package, with its syntax tree.
type source struct {
	path string
	text []byte
	tree *ast.File
}

// A loaded is a package with its source files that are built here, without its tests.
type loaded struct {
	path, name, directory string
	places                *token.FileSet
	files                 []source
	before                int  // how many mutants packages before it have, where it is one of several
	isOfSeveral           bool // then what it comes to is noted wherever it runs
}

// first is the number of the package's first mutant.
func (l *loaded) first() int { return l.before + 1 }

// unsaid is the mutant that is switched on where nobody says which: none, or for several packages -1, by which it is noted to which it comes.
func (l *loaded) unsaid() int {
	if l.isOfSeveral {
		return -1
	}
	return 0
}

// load reads a package.
func load(path string) (*loaded, error) {
	told, err := exec.Command("go", "list", "-json=Dir,Name,GoFiles", path).Output()
	if err != nil {
		return nil, fmt.Errorf("go list %s: %w", path, err)
	}
	var listed struct {
		Dir, Name string
		GoFiles   []string
	}
	if err := json.Unmarshal(told, &listed); err != nil {
		return nil, err
	}
	read := &loaded{path: path, name: listed.Name, directory: listed.Dir, places: token.NewFileSet()}
	for _, name := range listed.GoFiles {
		file, err := readSource(read.places, filepath.Join(listed.Dir, name))
		if err != nil {
			return nil, err
		}
		read.files = append(read.files, file)
	}
	return read, nil
}

func readSource(places *token.FileSet, path string) (source, error) {
	text, err := os.ReadFile(path)
	if err != nil {
		return source{}, err
	}
	tree, err := parser.ParseFile(places, path, text, 0)
	return source{path, text, tree}, err
}

// mutants gives the package's mutants, with their keys. Those that can be switched on know how.
func (l *loaded) mutants() ([]keyed, error) {
	lookup, err := exported(l.path)
	if err != nil {
		return nil, err
	}
	info := &types.Info{Types: map[ast.Expr]types.TypeAndValue{}, Defs: map[*ast.Ident]types.Object{}, Uses: map[*ast.Ident]types.Object{},
		Implicits: map[ast.Node]types.Object{}}
	var trees []*ast.File
	for _, file := range l.files {
		trees = append(trees, file.tree)
	}
	config := types.Config{Importer: importer.ForCompiler(l.places, "gc", lookup)}
	pkg, err := config.Check(l.path, l.places, trees, info)
	if err != nil {
		return nil, err
	}
	var all []keyed
	for _, file := range l.files {
		all = append(all, keysOf(l.path, mutantsOf(l.places, file, info, pkg))...)
	}
	return all, nil
}

// exported finds what the compiler knows of the packages that this one imports.
func exported(path string) (func(string) (io.ReadCloser, error), error) {
	told, err := exec.Command("go", "list", "-export", "-deps", "-f", "{{.ImportPath}}\t{{.Export}}", path).Output()
	if err != nil {
		return nil, fmt.Errorf("go list -export %s: %w", path, err)
	}
	files := map[string]string{}
	for _, line := range strings.Split(string(told), "\n") {
		if name, file, is := strings.Cut(line, "\t"); is {
			files[name] = file
		}
	}
	return func(name string) (io.ReadCloser, error) { return os.Open(files[name]) }, nil
}
