// Package exit has the exit statuses.
package exit

import "errors"

// Exit statuses; syncaudit's own are the same as far as it has them.
const (
	Done       = 0 // or settled
	NotSettled = 1
	Refused    = 2
	Usage      = 3
	Fault      = 5 // what was asked for can't be written
	Partial    = 6 // in step as far as audited
)

// ErrTold says that the log has been told already why there is no answer.
var ErrTold = errors.New("refused")
