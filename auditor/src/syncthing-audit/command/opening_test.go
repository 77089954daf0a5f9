package command

import (
	"go/ast"
	"strings"
	"testing"
)

// mayOpen are the files that open something to be read otherwise than by the package regular, and what that is.
var mayOpen = map[string]string{
	"listening/listening.go":     "the kernel's table of listeners",
	"directory/place.go":         "the system's id",
	"directory/plain_windows.go": "a directory",
	"leftover/staged.go":         "the directory that was made for a run",
	"leftover/whole.go":          "a directory, to have its names be on the disk",
	"inputs/looks.go":            "a part that the caller names: a shell may give a pipe",
	"ownpart/look.go":            "tokens that the caller names: a shell may give a pipe",
}

// A pipe in a file's place would be waited for, and a device might have no end. So what others may put something else in the place of is opened by the
// package regular alone.
func TestFilesAreOpenedInOnePlace(t *testing.T) {
	opened := 0
	inSources(t, func(path string, node ast.Node) {
		call, is := node.(*ast.CallExpr)
		if !is || !isOpening(call) {
			return
		}
		opened++
		if mayOpen[path] == "" {
			t.Errorf("%s opens a file to be read otherwise than by the package regular", path)
		}
	}, "sample/", "overwire/", "worlds/", "forecast/cmd/", "flags/render/")
	if opened < 5 {
		t.Errorf("%d calls that open were found", opened)
	}
}

// isOpening says whether a call opens a file to be read as the package os does it.
func isOpening(call *ast.CallExpr) bool {
	called, is := call.Fun.(*ast.SelectorExpr)
	if !is {
		return false
	}
	from, is := called.X.(*ast.Ident)
	return is && from.Name == "os" && (called.Sel.Name == "Open" || called.Sel.Name == "ReadFile")
}

// mayRename are the files that give something a name by themselves, and why none of them is to be put by the package leftover.
var mayRename = map[string]string{
	"leftover/whole.go":  "the package itself",
	"leftover/staged.go": "the package itself",
	"observe/kept.go":    "indexes: the next run takes all of them anew",
	"wire/identity.go":   "a key and its certificate, which are on the disk before",
	"ondisk/main.go":     "it builds for systems that leftover doesn't know, and has its file be on the disk before",
}

// A file that is renamed before it is on the disk may be empty once a machine has gone down. So files get their names by the package leftover alone.
func TestFilesGetTheirNamesInOnePlace(t *testing.T) {
	seen := map[string]bool{}
	inSources(t, func(path string, node ast.Node) {
		chosen, is := node.(*ast.SelectorExpr)
		if !is || !strings.HasPrefix(chosen.Sel.Name, "Rename") {
			return
		}
		if of, is := chosen.X.(*ast.Ident); is && (of.Name == "os" || of.Name == "unix" || of.Name == "syscall") {
			if seen[path] = true; mayRename[path] == "" {
				t.Errorf("%s renames something", path)
			}
		}
	}, "sample/", "worlds/", "forecast/cmd/")
	if len(seen) != len(mayRename) {
		t.Error(seen)
	}
}
