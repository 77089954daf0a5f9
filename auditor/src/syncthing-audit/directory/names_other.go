//go:build !darwin

package directory

// onWire gives a name as it goes over the wire.
func onWire(name string) string { return name }
