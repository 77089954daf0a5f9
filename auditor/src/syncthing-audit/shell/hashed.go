package shell

import (
	"encoding/hex"
	"strings"
)

// BehindNames stands before a hash that a part has in place of a name. No part of a path is as long, so each other name comes before it.
var BehindNames = strings.Repeat("\xff", 256)

// IsBehindNames says whether a part has a hash in place of a name.
func IsBehindNames(name string) bool { return strings.HasPrefix(name, BehindNames) }

// hashed gives what a person reads where a part has a hash in place of a name; nothing for each other name.
func hashed(name string) string {
	if !IsBehindNames(name) {
		return ""
	}
	return "[name of hash " + hex.EncodeToString([]byte(name[len(BehindNames):])) + "]"
}
