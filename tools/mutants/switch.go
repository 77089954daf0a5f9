package main

import (
	"go/ast"
	"go/token"
	"go/types"
	"strconv"
	"strings"
)

// A wrap is a piece of source with something before and after it, by which a mutant can be switched on while the program runs.
// The mutant's number stands behind 'before'. What is wrapped may have wraps inside.
type wrap struct {
	from, to               int
	before, between, after string
}

// numbered gives what stands before the piece.
func (w wrap) numbered(number int) string {
	return w.before + strconv.Itoa(number) + w.between
}

// switched gives the last mutant that was added its switch. Without types there is none: the mutant is compiled by itself then.
func (r *reader) switched(wraps ...wrap) {
	if r.info != nil && len(wraps) > 0 {
		r.found[len(r.found)-1].wraps = wraps
	}
}

// around gives the wrap of a node.
func (r *reader) around(node ast.Node, before, between, after string) wrap {
	return wrap{r.offset(node.Pos()), r.offset(node.End()), before, between, after}
}

// turned is the switch that turns a boolean.
func (r *reader) turned(node ast.Node) wrap {
	return r.around(node, "(mutantIs(", ") != (", "))")
}

// dropped is the switch that leaves a statement out.
func (r *reader) dropped(node ast.Node) []wrap {
	switch {
	case r.isComm[node]:
		return nil
	case r.isInHead[node]:
		return []wrap{r.around(node, "func() { if !mutantIs(", ") { ", " } }()")}
	}
	if statement, is := node.(*ast.ExprStmt); is {
		if call, is := statement.X.(*ast.CallExpr); is && r.text(call.Fun) == "panic" {
			return nil
		}
	}
	return []wrap{r.around(node, "if !mutantIs(", ") { ", " }")}
}

// either is the switch between an expression and another text in its place, which stands on one line.
func (r *reader) either(node ast.Expr, other string) []wrap {
	if r.info == nil {
		return nil
	}
	name := "bool"
	if !isBoolean(r.info.TypeOf(node)) {
		name = r.typeName(node)
	}
	if strings.Contains(other, "//") || strings.Contains(other, "`") || name == "" {
		return nil
	}
	other = strings.ReplaceAll(other, "\n", " ")
	return []wrap{r.around(node, "(func() "+name+" { if mutantIs(", ") { return "+other+" }; return ", " }())")}
}

func isBoolean(of types.Type) bool {
	basic, is := of.(*types.Basic)
	return is && basic.Info()&types.IsBoolean != 0
}

// typeName gives the name of an expression's type where it stands, or nothing if it has none there.
func (r *reader) typeName(node ast.Expr) string {
	switch of := r.info.TypeOf(node).(type) {
	case *types.Basic:
		if of.Kind() == types.UntypedInt {
			return r.visible("int", types.Universe.Lookup("int"), node)
		}
		if of.Info()&types.IsNumeric == 0 || of.Info()&types.IsUntyped != 0 {
			return ""
		}
		return r.visible(of.Name(), types.Universe.Lookup(of.Name()), node)
	case *types.Named:
		return r.nameOfNamed(of, node)
	}
	return ""
}

// nameOfNamed gives a declared type's name, behind its package's if that is another one.
func (r *reader) nameOfNamed(of *types.Named, node ast.Node) string {
	object := of.Obj()
	if object.Pkg() == r.pkg {
		return r.visible(object.Name(), object, node)
	}
	for _, imported := range r.tree.Imports {
		name, is := r.info.Implicits[imported].(*types.PkgName)
		if imported.Name != nil {
			name, is = r.info.Defs[imported.Name].(*types.PkgName)
		}
		if is && name.Imported() == object.Pkg() {
			if visible := r.visible(name.Name(), name, node); visible != "" {
				return visible + "." + object.Name()
			}
		}
	}
	return ""
}

// visible gives the name if it means this object where the node stands.
func (r *reader) visible(name string, object types.Object, node ast.Node) string {
	inner := r.pkg.Scope().Innermost(node.Pos())
	if inner == nil {
		return ""
	}
	if _, found := inner.LookupParent(name, node.Pos()); found != object || object == nil {
		return ""
	}
	return name
}

// exchanged are the switches that let two neighbouring arguments of a call change places.
func (r *reader) exchanged(call *ast.CallExpr, place int) []wrap {
	left, right, pick := call.Args[place], call.Args[place+1], "mutantPick("
	switch {
	case r.haveOneType(left, right):
	case r.areOfAnyType(call, place):
		pick = "mutantPick[interface{}]("
	default:
		return nil
	}
	return []wrap{
		r.around(left, pick, ", "+r.text(right)+", ", ")"),
		r.around(right, pick, ", "+r.text(left)+", ", ")"),
	}
}

// areOfAnyType says whether a call takes this argument and the next one whatever their types are, as fmt.Errorf does.
func (r *reader) areOfAnyType(call *ast.CallExpr, place int) bool {
	if r.info == nil {
		return false
	}
	signature, is := r.info.TypeOf(call.Fun).(*types.Signature)
	if !is || !signature.Variadic() || call.Ellipsis.IsValid() || place < signature.Params().Len()-1 ||
		!r.info.Types[call.Args[place]].IsValue() || !r.info.Types[call.Args[place+1]].IsValue() {
		return false
	}
	last, is := signature.Params().At(signature.Params().Len() - 1).Type().(*types.Slice)
	if !is {
		return false
	}
	of, is := last.Elem().Underlying().(*types.Interface)
	return is && of.Empty()
}

// haveOneType says whether both arguments are values of one type.
func (r *reader) haveOneType(left, right ast.Expr) bool {
	if r.info == nil {
		return false
	}
	one, other := r.info.TypeOf(left), r.info.TypeOf(right)
	if one == nil || other == nil || !r.info.Types[left].IsValue() || !types.Identical(one, other) {
		return false
	}
	basic, is := one.(*types.Basic)
	return !is || basic.Info()&types.IsUntyped == 0
}

// cannotSwap says whether the types tell that the call with its arguments swapped is no program.
func (r *reader) cannotSwap(call *ast.CallExpr, place int) bool {
	if r.info == nil || r.haveOneType(call.Args[place], call.Args[place+1]) {
		return false
	}
	signature, is := r.info.TypeOf(call.Fun).(*types.Signature)
	if !is || signature.Variadic() || signature.Params().Len() != len(call.Args) {
		return r.text(call.Fun) == "append" || r.text(call.Fun) == "make"
	}
	left, right := r.info.TypeOf(call.Args[place]), r.info.TypeOf(call.Args[place+1])
	return !types.AssignableTo(right, signature.Params().At(place).Type()) || !types.AssignableTo(left, signature.Params().At(place+1).Type())
}

// isText says whether an expression's type is that of texts, which can't be subtracted.
func (r *reader) isText(node ast.Expr) bool {
	if r.info == nil {
		return false
	}
	basic, is := r.info.TypeOf(node).Underlying().(*types.Basic)
	return is && basic.Info()&types.IsString != 0
}

// markHeads marks the statements that stand in the head of another one, where no block may stand, and what only makes room.
func (r *reader) markHeads(node ast.Node) {
	mark := func(marks map[ast.Node]bool, statement ast.Stmt) {
		if statement != nil {
			marks[statement] = true
		}
	}
	switch node := node.(type) {
	case *ast.ForStmt:
		mark(r.isInHead, node.Init)
		mark(r.isInHead, node.Post)
	case *ast.IfStmt:
		mark(r.isInHead, node.Init)
	case *ast.SwitchStmt:
		mark(r.isInHead, node.Init)
	case *ast.TypeSwitchStmt:
		mark(r.isInHead, node.Init)
		mark(r.isComm, node.Assign)
	case *ast.CommClause:
		mark(r.isComm, node.Comm)
	case *ast.CallExpr:
		if r.text(node.Fun) == "make" && len(node.Args) > 1 && !isList(node) {
			r.isCapacity[node.Args[len(node.Args)-1]] = true
		}
	}
}

// isList says whether the call makes a list of some length, or a channel of some room, in which it matters.
func isList(call *ast.CallExpr) bool {
	_, isMap := call.Args[0].(*ast.MapType)
	return !isMap && len(call.Args) == 2
}

// isBoundary says whether the other operator moves a comparison's boundary; any other comparison in its place is the opposite.
func isBoundary(own, other token.Token) bool {
	return own != token.EQL && own != token.NEQ && opposite[own] != other
}

var opposite = map[token.Token]token.Token{token.LSS: token.GEQ, token.LEQ: token.GTR, token.GTR: token.LEQ, token.GEQ: token.LSS}
