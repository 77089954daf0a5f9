package part

import (
	"strings"
	"testing"
)

// A part that is cut off within a line is told as that, also where the line is as long as one may be.
func TestALineThatIsCutOff(t *testing.T) {
	for _, length := range []int{1, 1 << 16, 1<<17 - 1, 1 << 17} {
		line, cut := "", &lines{from: newLines(strings.Repeat(" ", length))}
		if err := cut.read(&line, 1<<17); err == nil || err.Error() != "its last line isn't whole" {
			t.Errorf("%d bytes without an end: %v", length, err)
		}
	}
}
