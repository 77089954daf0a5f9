package render

import (
	"fmt"
	"os"
	"path/filepath"
	"strings"
	"testing"
)

// lines are those between which the man page has what is made of flags.txt: the options, and the exit statuses.
var lines = []string{".SH OPTIONS\n", ".SH WHAT AN ANSWER MEANS\n", ".SH EXIT STATUS\n", ".PP\nA signal"}

// filesOf gives what is made beside a man page.
func filesOf(t *testing.T, manual string) (map[string]string, error) {
	auditor := t.TempDir()
	if err := os.WriteFile(filepath.Join(auditor, page), []byte(manual), 0o600); err != nil {
		t.Fatal(err)
	}
	return Files(auditor)
}

// What stands between those lines is made anew, whatever it was, and all else of the page stays. A page that lacks one of the lines is told, with both of the
// pair, and so is one that isn't there.
func TestTheManPageIsMadeAnew(t *testing.T) {
	const auditor = "../../../.."
	current, err := os.ReadFile(filepath.Join(auditor, page))
	if err != nil {
		t.Fatal(err)
	}
	old := string(current)
	for pair := 0; pair < len(lines); pair += 2 {
		before, rest, _ := strings.Cut(old, lines[pair])
		_, after, _ := strings.Cut(rest, lines[pair+1])
		old = before + lines[pair] + "something old\n" + lines[pair+1] + after
	}
	files, err := filesOf(t, old)
	if err != nil || files[page] != string(current) || len(files) != 4 {
		t.Errorf("%d files, %v", len(files), err)
	}
	for place, line := range lines {
		files, err := filesOf(t, strings.Replace(old, line, "", 1))
		if due := fmt.Sprintf("%s hasn't the lines %q and %q", page, lines[place/2*2], lines[place/2*2+1]); err == nil || err.Error() != due || files != nil {
			t.Errorf("without %q: %v", line, err)
		}
	}
	if files, err := Files(t.TempDir()); !os.IsNotExist(err) || files != nil {
		t.Errorf("without a page: %v", err)
	}
}
