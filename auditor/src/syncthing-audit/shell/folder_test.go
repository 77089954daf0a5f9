package shell

import (
	"errors"
	"fmt"
	"io"
	"testing"
)

func TestFolder(t *testing.T) {
	for _, row := range [][3]string{{"docs", "", "docs"}, {"docs", "docs", "docs"}, {"abcd-1234", "My Documents", "abcd-1234 (My Documents)"},
		{"my docs", "a\nb", "'my docs' (a?b)"}} {
		if told := Folder(row[0], row[1]); told != row[2] {
			t.Errorf("%s, not %s", told, row[2])
		}
	}
}

// An error that names a folder by its id names it by its label, too, and is still the same one.
func TestLabelled(t *testing.T) {
	err := Labelled(fmt.Errorf("folder docs: there is no /srv/docs: %w", io.EOF), "docs", "Documents")
	if err.Error() != "folder docs (Documents): there is no /srv/docs: EOF" || !errors.Is(err, io.EOF) {
		t.Error(err)
	}
	if err := Labelled(errors.New("folder docs: folder docs: gone"), "docs", "Documents"); err.Error() != "folder docs (Documents): folder docs: gone" {
		t.Error(err)
	}
	if err := Labelled(io.EOF, "docs", "Documents"); err.Error() != "EOF" || Labelled(nil, "docs", "Documents") != nil {
		t.Error(err)
	}
}
