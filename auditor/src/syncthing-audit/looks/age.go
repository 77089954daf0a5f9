package looks

import (
	"strconv"
	"strings"
	"time"
)

// LineOfAge is how 'part --begin' says on standard error how long its look has been over.
const LineOfAge = "syncthing-audit: the first look was over %.3f s ago\n"

// AgeOf reads how long a first look had been over when its command ended; 0 where that isn't said.
func AgeOf(told string) time.Duration {
	begin, end, _ := strings.Cut(LineOfAge, "%.3f")
	for _, line := range strings.SplitAfter(told, "\n") {
		if seconds, err := strconv.ParseFloat(strings.TrimSuffix(strings.TrimPrefix(line, begin), end), 64); err == nil && seconds >= 0 {
			return time.Duration(seconds * float64(time.Second))
		}
	}
	return 0
}
