package diskhalf

import (
	"fmt"
	"net"
	"os"
	"syscall"

	"syncthing-audit/listening"
)

// checkListener says why whoever listens at the far end of a connection isn't seen to be the Syncthing of a config.xml: another user's program, where that
// Syncthing doesn't run, would get its API key. Root may listen for a container's.
func checkListener(conn net.Conn, config string) error {
	at, is := conn.RemoteAddr().(*net.TCPAddr)
	about, err := os.Stat(config)
	if err != nil || !is {
		return fmt.Errorf("it isn't seen whose page it is: %v", err)
	}
	found, err := listening.At(at)
	if err != nil || len(found) == 0 {
		return fmt.Errorf("it isn't seen whose program listens for its page: %v", err)
	}
	owner := int(about.Sys().(*syscall.Stat_t).Uid)
	for _, socket := range found {
		if socket.User != owner && socket.User != 0 {
			return fmt.Errorf("a program of user %d listens for its page, and the configuration is of user %d", socket.User, owner)
		}
	}
	return nil
}
