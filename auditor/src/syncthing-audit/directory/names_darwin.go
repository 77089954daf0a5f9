package directory

import "golang.org/x/text/unicode/norm"

// onWire gives a name as it goes over the wire. The system may take letters apart, and finds them either way.
func onWire(name string) string { return norm.NFC.String(name) }
