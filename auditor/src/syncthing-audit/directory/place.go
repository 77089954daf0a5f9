package directory

import (
	"crypto/sha256"
	"encoding/hex"
	"os"
)

// placeOf gives the text for a directory that is told apart so on this machine.
func placeOf(told string) string {
	sum := sha256.Sum256([]byte(machine() + " " + told))
	return hex.EncodeToString(sum[:])
}

// machineID is the file in which a machine says what it is told apart by.
var machineID = "/etc/machine-id"

// machine gives what the machine is told apart by.
func machine() string {
	if id, err := os.ReadFile(machineID); err == nil && len(id) > 1 {
		return string(id)
	}
	name, _ := os.Hostname()
	return name
}
