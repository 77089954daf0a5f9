package process

import (
	"os"
	"runtime/debug"
)

// mostMemory is a bound for the garbage collector. Near it the program looks for memory that it needs no more before it
// takes further memory. What it needs at one time is less, however many names there are.
const mostMemory = 200 << 20

// grown is by how many percent what is in use may grow before the collector runs, as long as that is below the bound. By Go's own 100 it runs twice as
// often: that took a tenth of all processor time where names are joined, and 30 MB less.
const grown = 200

// LimitMemory sets both, where the environment doesn't.
func LimitMemory() {
	if os.Getenv("GOMEMLIMIT") == "" {
		debug.SetMemoryLimit(mostMemory)
	}
	if os.Getenv("GOGC") == "" {
		debug.SetGCPercent(grown)
	}
}
