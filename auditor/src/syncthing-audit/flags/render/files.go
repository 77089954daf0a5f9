package render

import (
	"fmt"
	"os"
	"path/filepath"
	"strings"

	"syncthing-audit/flags"
)

// page is the man page.
const page = "syncthing-audit.1"

// Files gives the files that are made of the flags, by their places below the folder auditor.
func Files(auditor string) (map[string]string, error) {
	all := flags.Read()
	text, err := os.ReadFile(filepath.Join(auditor, page))
	if err != nil {
		return nil, err
	}
	manual, err := replaced(string(text), ".SH OPTIONS\n", ".SH WHAT AN ANSWER MEANS\n", Manual(all))
	if err == nil {
		manual, err = replaced(manual, ".SH EXIT STATUS\n", ".PP\nA signal", Statuses(all))
	}
	if err != nil {
		return nil, err
	}
	return map[string]string{
		page:                               manual,
		"completions/syncthing-audit.bash": Bash(all),
		"completions/_syncthing-audit":     Zsh(all),
		"completions/syncthing-audit.fish": Fish(all),
	}, nil
}

// replaced gives the page with other lines between these two.
func replaced(manual, first, last, lines string) (string, error) {
	before, rest, isFirst := strings.Cut(manual, first)
	_, after, isLast := strings.Cut(rest, last)
	if !isFirst || !isLast {
		return "", fmt.Errorf("%s hasn't the lines %q and %q", page, first, last)
	}
	return before + first + lines + last + after, nil
}
