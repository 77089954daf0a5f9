package command

import (
	"os"
	"testing"
)

// TestMain clears $SYNCAUDIT, so that a test that needs the program says so by useAuditor or auditor: what passes for a
// maintainer who has set it passes for all.
func TestMain(tests *testing.M) {
	os.Unsetenv("SYNCAUDIT")
	os.Exit(tests.Run())
}
