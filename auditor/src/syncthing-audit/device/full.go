package device

import (
	"errors"
	"fmt"
	"strings"
	"syscall"
)

// isFull says whether a disk has no room. Syncthing's packages have the cause in a text alone.
func isFull(err error) bool { return causeOf(err, syscall.ENOSPC, syscall.EDQUOT) != nil }

// causeOf says which of these causes an error has.
func causeOf(err error, causes ...error) error {
	for _, cause := range causes {
		if errors.Is(err, cause) || strings.Contains(err.Error(), cause.Error()) {
			return cause
		}
	}
	return nil
}

// notOpened says why a copy can't be opened, which also takes room. Syncthing's package guesses then that another Syncthing runs, which isn't so
// of a copy.
func notOpened(err error) error {
	if cause := causeOf(err, syscall.ENOSPC, syscall.EDQUOT); cause != nil {
		return notCopied(cause)
	}
	return fmt.Errorf("refused: the copy of the index can't be opened: %s", strings.TrimSuffix(err.Error(), " (is another instance of Syncthing running?)"))
}
