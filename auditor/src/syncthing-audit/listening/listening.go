// Package listening says whose programs listen at addresses of this machine, by the tables that Linux has of sockets.
package listening

import (
	"encoding/hex"
	"errors"
	"net"
	"os"
	"strconv"
	"strings"
)

// Socket is one that listens.
type Socket struct {
	User  int
	Inode string
}

// tables are those that Linux has. Tests have others.
var tables = []string{"/proc/net/tcp", "/proc/net/tcp6"}

// At gives those that listen at an address.
func At(at *net.TCPAddr) ([]Socket, error) {
	sockets := []Socket{}
	for _, path := range tables {
		table, err := os.ReadFile(path)
		if errors.Is(err, os.ErrNotExist) {
			continue // a machine without IPv6
		}
		if err != nil {
			return nil, err
		}
		for _, line := range strings.Split(string(table), "\n") {
			if socket, is := listensAt(line, at); is {
				sockets = append(sockets, socket)
			}
		}
	}
	return sockets, nil
}

// The columns of the kernel's tables of sockets, and the state of one that listens.
const (
	columnOfAddress = 1
	columnOfState   = 3
	columnOfUser    = 7
	columnOfInode   = 9
	stateOfListener = "0A"
)

// listensAt gives a line's socket, where that listens at an address.
func listensAt(line string, at *net.TCPAddr) (Socket, bool) {
	columns := strings.Fields(line)
	if len(columns) <= columnOfInode || columns[columnOfState] != stateOfListener {
		return Socket{}, false
	}
	host, port, _ := strings.Cut(columns[columnOfAddress], ":")
	number, err := strconv.ParseUint(port, 16, 16)
	address := addressIn(host)
	if err != nil || int(number) != at.Port || !address.IsUnspecified() && !address.Equal(at.IP) {
		return Socket{}, false
	}
	user, err := strconv.Atoi(columns[columnOfUser])
	return Socket{user, columns[columnOfInode]}, err == nil
}

// addressIn reads an address of such a table: numbers of 32 bits in the order of the machine. All for which this program is built have the lowest
// byte first.
func addressIn(text string) net.IP {
	address, _ := hex.DecodeString(text)
	for at := 0; at+4 <= len(address); at += 4 {
		address[at], address[at+1], address[at+2], address[at+3] = address[at+3], address[at+2], address[at+1], address[at]
	}
	return address
}
