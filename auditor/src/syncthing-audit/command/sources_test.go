package command

import (
	"go/ast"
	"go/parser"
	"go/token"
	"io/fs"
	"path/filepath"
	"strings"
	"testing"
)

// inSources visits all that stands in the program's sources, but for tests and what is below these directories.
func inSources(t *testing.T, visit func(path string, node ast.Node), without ...string) {
	t.Helper()
	err := filepath.WalkDir("..", func(file string, _ fs.DirEntry, err error) error {
		if err != nil || !strings.HasSuffix(file, ".go") || strings.HasSuffix(file, "_test.go") {
			return err
		}
		path := strings.TrimPrefix(file, "../")
		for _, directory := range without {
			if strings.HasPrefix(path, directory) {
				return nil
			}
		}
		parsed, err := parser.ParseFile(token.NewFileSet(), file, nil, 0)
		if err != nil {
			return err
		}
		ast.Inspect(parsed, func(node ast.Node) bool {
			visit(path, node)
			return true
		})
		return nil
	})
	if err != nil {
		t.Fatal(err)
	}
}
