package command

import (
	"go/ast"
	"go/token"
	"path/filepath"
	"regexp"
	"strings"
	"testing"

	"golang.org/x/exp/slices"
	"syncthing-audit/choice"
	"syncthing-audit/commandline"
	"syncthing-audit/exit"
	"syncthing-audit/fixture"
	"syncthing-audit/part"
)

// A name that is left out for a kind is refused with that kind behind --leave-out, or left out without being asked. Whoever follows the refusal gets an
// answer as far as audited.
func TestEachKindIsOneThatLeaveOutTakes(t *testing.T) {
	fixture.UseAuditor(t)
	advised := regexp.MustCompile(`--leave-out ([a-z,]+)`)
	for _, kind := range append([]string{part.Damaged}, part.Kinds...) {
		inStep := [2]*part.Name{hostileFile("z", 9, 1), hostileFile("z", 9, 1)}
		left := [2]*part.Name{{Name: "a", Out: []part.LeftOut{{Kind: kind, Why: "it isn't told"}}}, hostileFile("a", 1, 1)}
		parts := partsOf(t, false, choice.Names{}, [][2]*part.Name{left, inStep})
		status, output, log := checked(parts, nil, "")
		if kind == part.Damaged {
			if status != exit.NotSettled {
				t.Errorf("what a disk fails to give has status %d:\n%s%s", status, output, log)
			}
			continue
		}
		if status == exit.Refused {
			words := advised.FindStringSubmatch(log)
			if words == nil || !slices.Contains(strings.Split(words[1], ","), kind) {
				t.Errorf("%s: nobody is told to leave it out:\n%s", kind, log)
				continue
			}
			status, output, log = checked(parts, strings.Split(words[1], ","), "")
		}
		if status != exit.Partial || !strings.Contains(output, "it isn't told") && !strings.Contains(output, "left out") {
			t.Errorf("%s: status %d:\n%s%s", kind, status, output, log)
		}
	}
}

// kindsOfTheSource gives the words of all constants of the package part, by their names, and each value that a literal of what is left out or refused has
// as its kind: a constant's name, or a word of its own.
func kindsOfTheSource(t *testing.T) (words map[string]string, used map[string]string) {
	words, used = map[string]string{}, map[string]string{}
	inSources(t, func(path string, node ast.Node) {
		switch node := node.(type) {
		case *ast.ValueSpec:
			for place, name := range node.Names {
				if word, is := wordOf(node, place); is && filepath.Dir(path) == "part" {
					words[name.Name] = word
				}
			}
		case *ast.CompositeLit:
			if kind := kindIn(node); kind != "" {
				used[kind] = path
			}
		}
	})
	return words, used
}

func wordOf(spec *ast.ValueSpec, place int) (string, bool) {
	if place >= len(spec.Values) {
		return "", false
	}
	literal, is := spec.Values[place].(*ast.BasicLit)
	if !is || literal.Kind != token.STRING {
		return "", false
	}
	return strings.Trim(literal.Value, `"`), true
}

// kindIn gives the kind that a literal of a LeftOut has: the name of a constant, or a word in quotation marks.
func kindIn(literal *ast.CompositeLit) string {
	name, is := literal.Type.(*ast.Ident)
	if selector, isOther := literal.Type.(*ast.SelectorExpr); isOther {
		name, is = selector.Sel, true
	}
	if !is || name.Name != "LeftOut" {
		return ""
	}
	for _, element := range literal.Elts {
		pair, is := element.(*ast.KeyValueExpr)
		if !is || pair.Key.(*ast.Ident).Name != "Kind" {
			continue
		}
		switch value := pair.Value.(type) {
		case *ast.SelectorExpr:
			return value.Sel.Name
		case *ast.BasicLit:
			return value.Value
		}
	}
	return ""
}

// Each kind that the source gives to what it leaves out is a constant whose word --leave-out takes, or is damage.
func TestEachKindOfTheSource(t *testing.T) {
	words, used := kindsOfTheSource(t)
	if len(used) < 5 {
		t.Errorf("only these are used: %v", used)
	}
	for kind, path := range used {
		if word := words[kind]; word != part.Damaged && !part.IsKind(word) {
			t.Errorf("%s leaves something out as %s, which --leave-out doesn't take", path, kind)
		}
		flags := commandline.Kinds{}
		if err := flags.Set(words[kind]); (err == nil) != part.IsKind(words[kind]) {
			t.Errorf("--leave-out %s: %v", words[kind], err)
		}
	}
}
