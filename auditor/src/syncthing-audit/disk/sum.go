package disk

import "crypto/sha256"

// NewSum gives what sums up a SHA-256. Who has a faster one than the standard library sets it before the first pool is made: before Go 1.21 that one
// doesn't use the instructions that a processor may have for it.
var NewSum = sha256.New
