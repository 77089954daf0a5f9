package main

import (
	"go/ast"
	"go/token"
	"math/big"
)

// The operators that take a binary operator's place: the boundary moved, and the answer turned.
var otherOperators = map[token.Token][]token.Token{
	token.EQL: {token.NEQ}, token.NEQ: {token.EQL},
	token.LSS: {token.LEQ, token.GEQ}, token.LEQ: {token.LSS, token.GTR}, token.GTR: {token.GEQ, token.LEQ}, token.GEQ: {token.GTR, token.LSS},
	token.LAND: {token.LOR}, token.LOR: {token.LAND},
	token.ADD: {token.SUB}, token.SUB: {token.ADD},
}

// visit adds the mutants of one node.
func (r *reader) visit(node ast.Node) bool {
	r.markHeads(node)
	if r.isCapacity[node] {
		return false
	}
	switch node := node.(type) {
	case *ast.BinaryExpr:
		r.addOperators(node)
	case *ast.IfStmt:
		r.add("condition turned", node.Cond.Pos(), node.Cond.End(), "!("+r.text(node.Cond)+")", r.text(node.Cond))
		r.switched(r.turned(node.Cond))
	case *ast.DeferStmt:
		r.addDropped("defer", node, r.text(node))
	case *ast.ExprStmt, *ast.IncDecStmt:
		r.addDropped("statement", node, r.text(node))
	case *ast.AssignStmt:
		if node.Tok != token.DEFINE {
			r.addDropped("assignment", node, r.text(node))
		}
	case *ast.BranchStmt:
		if node.Label == nil && (node.Tok == token.CONTINUE || node.Tok == token.BREAK) {
			r.addDropped(node.Tok.String(), node, node.Tok.String())
		}
	case *ast.BasicLit:
		r.addNumber(node)
	case *ast.Ident:
		if other := map[string]string{"true": "false", "false": "true"}[node.Name]; other != "" {
			r.add("constant "+other, node.Pos(), node.End(), other, node.Name)
			r.switched(r.turned(node))
		}
	case *ast.CallExpr:
		r.addSwaps(node)
	case *ast.ReturnStmt:
		r.addSwallowed(node)
	}
	return true
}

// addDropped adds the mutant without a statement.
func (r *reader) addDropped(kind string, node ast.Node, was string) {
	r.add(kind+" dropped", node.Pos(), node.End(), "_ = 0", was)
	r.switched(r.dropped(node)...)
}

// addOperators adds the mutants that have another operator.
func (r *reader) addOperators(node *ast.BinaryExpr) {
	for _, other := range otherOperators[node.Op] {
		if other == token.SUB && r.isText(node) {
			continue
		}
		end := node.OpPos + token.Pos(len(node.Op.String()))
		r.add("operator "+other.String(), node.OpPos, end, other.String(), r.text(node))
		if node.Op.Precedence() == token.EQL.Precedence() && !isBoundary(node.Op, other) {
			r.switched(r.turned(node))
			continue
		}
		left, right := string(r.source[r.offset(node.Pos()):r.offset(node.OpPos)]), string(r.source[r.offset(end):r.offset(node.End())])
		r.switched(r.either(node, left+other.String()+right)...)
	}
}

// addNumber adds the mutant of a whole number that is one larger.
func (r *reader) addNumber(literal *ast.BasicLit) {
	if literal.Kind != token.INT {
		return
	}
	if value, is := new(big.Int).SetString(literal.Value, 0); is {
		r.add("one more", literal.Pos(), literal.End(), value.Add(value, big.NewInt(1)).String(), literal.Value)
		if r.info != nil {
			if name := r.typeName(literal); name != "" {
				r.switched(r.around(literal, "mutantMore["+name+"](", ", ", ")"))
			}
		}
	}
}

// Functions that answer the same when their arguments are swapped.
var isSymmetric = map[string]bool{"reflect.DeepEqual": true, "bytes.Equal": true, "os.SameFile": true, "strings.EqualFold": true, "slices.Equal": true, "max": true, "min": true}

// addSwaps adds the mutants of a call with two neighbouring arguments swapped. Where their types differ it isn't compiled.
func (r *reader) addSwaps(call *ast.CallExpr) {
	if isSymmetric[r.text(call.Fun)] {
		return
	}
	for i := 0; i+1 < len(call.Args); i++ {
		left, right := call.Args[i], call.Args[i+1]
		if !isPlain(left) || !isPlain(right) || r.text(left) == r.text(right) || r.cannotSwap(call, i) {
			continue
		}
		r.add("arguments swapped", left.Pos(), right.End(), r.text(right)+", "+r.text(left), r.text(call))
		r.switched(r.exchanged(call, i)...)
	}
}

// isPlain says whether an argument is a name or a field, which may well have its neighbour's type.
func isPlain(argument ast.Expr) bool {
	switch argument.(type) {
	case *ast.Ident, *ast.SelectorExpr:
		return true
	}
	return false
}

// addSwallowed adds the mutant of a return without its error.
func (r *reader) addSwallowed(given *ast.ReturnStmt) {
	if len(given.Results) == 0 {
		return
	}
	last := given.Results[len(given.Results)-1]
	if name, is := last.(*ast.Ident); is && name.Name == "err" {
		r.add("error swallowed", last.Pos(), last.End(), "nil", r.text(given))
		r.switched(r.around(last, "mutantNil(", ", ", ")"))
	}
}
