package command

import (
	"go/ast"
	"strings"
	"testing"
)

// mayWrite are the files that write otherwise than by the package outside, and what they write.
var mayWrite = map[string]string{
	"ask/lines.go":         "a digit of an escaped byte, into a text",
	"shell/shell.go":       "a digit of an escaped byte, into a text",
	"rows/cut.go":          "a document for syncaudit",
	"terminal/screen.go":   "the line of a terminal, whose words are escaped where it is made, and what was printed by this package before",
	"places/running.go":    "tokens for a look's standard input",
	"script/script.go":     "steps of a shell script, whose names are quoted",
	"script/text.go":       "a shell script around them",
	"answering/scripts.go": "shell scripts",
	"page/page.go":         "a page, whose texts html/template escapes",
	"watch/metrics.go":     "a text for Prometheus, which has escapes of its own",
}

// isWrapper says whether a function prints by a format that it is given.
func isWrapper(path, name string) bool {
	return name == "line" && strings.HasPrefix(path, "summary/") || name == "tellStep"
}

// All that is printed goes through the package outside, by formats of the program's own: no other file prints or makes a format of a text.
func TestPrintingIsInOnePlace(t *testing.T) {
	printed := 0
	inSources(t, func(path string, node ast.Node) {
		if call, is := node.(*ast.CallExpr); is {
			printed += checkPrinting(t, path, call)
		}
	}, "outside/", "sample/", "overwire/", "forecast/cmd/", "flags/write/")
	if printed < 50 {
		t.Errorf("%d calls that print were found", printed)
	}
}

// checkPrinting says what is wrong with a call, and gives whether it prints.
func checkPrinting(t *testing.T, path string, call *ast.CallExpr) int {
	called, is := call.Fun.(*ast.SelectorExpr)
	if !is {
		if name, is := call.Fun.(*ast.Ident); is && (name.Name == "print" || name.Name == "println") {
			t.Errorf("%s prints by %s", path, name.Name)
		}
		return 0
	}
	of, _ := called.X.(*ast.Ident)
	name := called.Sel.Name
	switch {
	case of != nil && of.Name == "outside" && (name == "Printf" || name == "Print"):
		if mayBeOthers(call.Args[1]) && !(name == "Print" && isOwnText(path, call.Args[1])) {
			t.Errorf("%s prints by a format or a text that may be another's", path)
		}
		return 1
	case of != nil && of.Name == "outside":
		return 1
	case isWrapper(path, name) && mayBeOthers(call.Args[0]):
		t.Errorf("%s prints by a format that may be another's", path)
	case of != nil && (of.Name == "fmt" && strings.Contains(name, "rint") && !strings.HasPrefix(name, "S") || of.Name == "io" && name == "WriteString" ||
		of.Name == "log") && mayWrite[path] == "":
		t.Errorf("%s prints by %s.%s", path, of.Name, name)
	}
	return 0
}

// isOwnText says whether a text is the program's own: a text that is asked for (usage, version), or what a night tells,
// whose lines are made by outside.Sprintf.
func isOwnText(path string, of ast.Expr) bool {
	name, is := of.(*ast.Ident)
	return is && name.Name == "text" && (path == "exit/of.go" || path == "night/night.go" || path == "night/tell.go")
}

// mayBeOthers says whether a format may be another's: it isn't made of literals, constants and the format of whoever calls.
func mayBeOthers(of ast.Expr) bool {
	switch made := of.(type) {
	case *ast.BasicLit:
		return false
	case *ast.BinaryExpr:
		return mayBeOthers(made.X) || mayBeOthers(made.Y)
	case *ast.Ident:
		isConstant := made.Obj != nil && made.Obj.Kind == ast.Con
		return !isConstant && made.Name != "format"
	case *ast.SelectorExpr:
		return made.Sel.Name != "LineOfAge"
	}
	return true
}
