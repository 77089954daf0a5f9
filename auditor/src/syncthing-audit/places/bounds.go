package places

import (
	"fmt"
	"time"

	"syncthing-audit/bounded"
	"syncthing-audit/inputs"
)

// How much a device may write as it is asked, and say on standard error: some lines for each folder.
const (
	mostOfAbout = 64 << 20
	mostTold    = 1 << 20
)

// How long a device may be silent, and take in all. Each byte on standard output or standard error ends a silence. A first look is silent while it
// hashes one large file: 8 TB take a day. A second look hashes nothing, but it copies an index, and may wait until Syncthing is idle. A person may
// have to type a password. ssh itself ends a connection whose other end is gone within minutes (ssh.go).
const (
	longestAsking  = time.Hour
	longestSilence = 48 * time.Hour
	longestHashing = 30 * 24 * time.Hour
	longestSecond  = 24 * time.Hour
)

// boundsOfAbout are those of the question what a device shares.
var boundsOfAbout = bounded.Limits{Output: mostOfAbout, Told: mostTold, Silence: longestAsking, Whole: longestAsking}

// boundsOfBegin are those of a first look.
var boundsOfBegin = bounded.Limits{Output: inputs.MostOfPart, Told: mostTold, Silence: longestSilence, Whole: longestHashing}

// boundsOfEnd are those of a second look, which waits so long until Syncthing is idle.
func boundsOfEnd(still float64) bounded.Limits {
	waits := time.Duration(still * float64(time.Second))
	return bounded.Limits{Output: inputs.MostOfPart, Told: mostTold, Silence: longestAsking + waits, Whole: longestSecond + waits}
}

// mostShown is how many bytes of its beginning and of its end are shown of what a failed command said.
const mostShown = 4096

// shown gives what a failed command said, or where that is long its beginning and its end.
func shown(told string) string {
	if len(told) <= 2*mostShown {
		return told
	}
	return fmt.Sprintf("%s [%d bytes more] %s", told[:mostShown], len(told)-2*mostShown, told[len(told)-mostShown:])
}
