// Package limits has what a check document can say: how much, and which names and targets.
package limits

// Limits of a document.
const (
	MostNames       = 4096
	MostDevices     = 16
	MostFolders     = 16
	MostBytes       = 64 << 20
	MostFileBytes   = MostBytes // with bytes in place of stand-ins: no document has room for more
	MostNameBytes   = 1024
	MostTargetBytes = 1024
	MostCounters    = 16
)
