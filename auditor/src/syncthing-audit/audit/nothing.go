package audit

import (
	"errors"
	"fmt"
	"strings"

	"syncthing-audit/finding"
	"syncthing-audit/shell"
)

// ErrNothing says that an audit would call nothing at all settled.
var ErrNothing = errors.New("refused: there is nothing to audit: no name of any folder is left")

// mostLeft is how many of what was left out are told where nothing is left.
const mostLeft = 5

// Nothing says that nothing is left to audit, and what was left out: that is what to mend.
func Nothing(answer *finding.Answer) error {
	all := answer.LeftOut
	if len(all) == 0 {
		return ErrNothing
	}
	told := []string{}
	for at, refusal := range all {
		if at == mostLeft {
			break
		}
		told = append(told, shell.Folder(refusal.Folder, refusal.Label)+deviceOf(refusal)+": "+refusal.Why)
	}
	if more := len(all) - len(told); more > 0 {
		told = append(told, fmt.Sprintf("and %d more", more))
	}
	return fmt.Errorf("%w. Left out: %s", ErrNothing, strings.Join(told, "; "))
}

// deviceOf names the device of what was left out, if it is of one.
func deviceOf(refusal finding.Refusal) string {
	if refusal.Device == "" {
		return ""
	}
	return " of " + refusal.Device
}
