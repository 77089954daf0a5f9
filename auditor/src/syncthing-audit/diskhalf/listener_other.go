//go:build !linux

package diskhalf

import "net"

// checkListener says nothing: this system doesn't tell here whose program listens.
func checkListener(net.Conn, string) error { return nil }
