package main

import (
	"fmt"
	"go/ast"
	"go/token"
	"go/types"
	"path/filepath"
	"sort"
	"strings"
)

// A mutant is a source file with one change.
type mutant struct {
	file     string // the path of the source file
	line     int
	function string // in which the change stands
	from, to int    // the bytes that are replaced
	text     string // what stands there instead
	operator string // what kind of change it is
	was      string // what stood there, on one line
	wraps    []wrap // by which it can be switched on; none if it must be compiled by itself
}

// key names the mutant without its line, so that it lasts while other lines change. The number is its place among those that
// are else alike.
func (m mutant) key(number int) string {
	key := fmt.Sprintf("%s %s: %s: %s", filepath.Base(m.file), m.function, m.operator, m.was)
	if number > 0 {
		key += fmt.Sprintf(" #%d", number+1)
	}
	return key
}

// mutated gives the source with the change.
func (m mutant) mutated(source []byte) []byte {
	return []byte(string(source[:m.from]) + m.text + string(source[m.to:]))
}

// mutantsOf gives all mutants of a source file, in the order of their places.
func mutantsOf(places *token.FileSet, file source, info *types.Info, pkg *types.Package) []mutant {
	var found []mutant
	for _, declared := range file.tree.Decls {
		function, is := declared.(*ast.FuncDecl)
		if !is || function.Body == nil {
			continue
		}
		reader := &reader{places: places, source: file.text, file: file.path, function: nameOf(function), tree: file.tree, info: info, pkg: pkg,
			isInHead: map[ast.Node]bool{}, isComm: map[ast.Node]bool{},
			isCapacity: map[ast.Node]bool{}}
		ast.Inspect(function.Body, reader.visit)
		found = append(found, reader.found...)
	}
	sort.SliceStable(found, func(i, j int) bool { return found[i].from < found[j].from })
	return found
}

// nameOf gives a function's name, behind that of its receiver's type.
func nameOf(function *ast.FuncDecl) string {
	if function.Recv == nil || len(function.Recv.List) == 0 {
		return function.Name.Name
	}
	receiver := function.Recv.List[0].Type
	if pointer, is := receiver.(*ast.StarExpr); is {
		receiver = pointer.X
	}
	if name, is := receiver.(*ast.Ident); is {
		return name.Name + "." + function.Name.Name
	}
	return function.Name.Name
}

// A reader collects the mutants of one function.
type reader struct {
	places   *token.FileSet
	source   []byte
	file     string
	function string
	found    []mutant
	tree     *ast.File
	info     *types.Info // none where types aren't known
	pkg      *types.Package
	isInHead map[ast.Node]bool // statements in the head of another one
	isComm   map[ast.Node]bool // statements that can't be replaced by another kind
	// How much room is made, which no answer tells.
	isCapacity map[ast.Node]bool
}

// text gives the source of a node.
func (r *reader) text(node ast.Node) string {
	return string(r.source[r.offset(node.Pos()):r.offset(node.End())])
}

// offset gives the place of a position in the source, in bytes.
func (r *reader) offset(position token.Pos) int {
	return r.places.Position(position).Offset
}

// add adds the mutant that has the text in place of what stands from one position to the other.
func (r *reader) add(operator string, from, to token.Pos, text, was string) {
	r.found = append(r.found, mutant{
		file: r.file, line: r.places.Position(from).Line, function: r.function, from: r.offset(from), to: r.offset(to),
		text: text, operator: operator, was: strings.Join(strings.Fields(was), " "),
	})
}
