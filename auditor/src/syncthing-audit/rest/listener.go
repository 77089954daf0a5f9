package rest

import (
	"errors"
	"fmt"
	"net"
	"os"
	"path/filepath"
	"strconv"
	"syscall"

	"golang.org/x/sys/unix"
	"syncthing-audit/device"
	"syncthing-audit/listening"
)

// ErrStranger says that whoever listens isn't seen to be the Syncthing of a home.
var ErrStranger = errors.New("the API key isn't sent")

// errNoneListed says that nobody is seen to listen.
var errNoneListed = errors.New("this system has none listed")

// listener is a program that listens at an address of this machine.
type listener struct {
	user      int
	processes func() []int // as far as they are seen
}

// checkFar says why the far end of a connection isn't seen to be this home's own Syncthing, which alone is to have the API key. With TLS its
// certificate shows it. Without that, the listener is to be of the home's user, and an index is to be in use: this home's, as its lock shows, or one
// that the listener has open, as where the database is elsewhere.
func (s Syncthing) checkFar(connection net.Conn) error {
	owner, err := ownerOf(filepath.Join(s.Home, "config.xml"))
	if err != nil {
		return err
	}
	at := connection.RemoteAddr()
	all, err := listenersOf(connection)
	if err == nil && len(all) == 0 {
		err = errNoneListed
	}
	if err != nil {
		return fmt.Errorf("%w to %s: it isn't seen whose program listens there: %v. Where Syncthing uses HTTPS, its certificate shows it", ErrStranger, at, err)
	}
	isHeld := device.IsHeld(s.data())
	for _, listener := range all {
		if err := listener.check(owner, isHeld); err != nil {
			return fmt.Errorf("%w to %s: %v", ErrStranger, at, err)
		}
	}
	return nil
}

// check says why a listener isn't seen to be the Syncthing of a home: whose that is, and whether its index is in use. Root reads each home, and may
// listen for a container's Syncthing.
func (l listener) check(owner int, isHeld bool) error {
	if l.user != owner && l.user != 0 {
		return fmt.Errorf("a program of user %d listens there, and the home is of user %d", l.user, owner)
	}
	if !isHeld && !l.holdsIndex() {
		return errors.New("no Syncthing runs on the home's index, and who listens there isn't seen to have another index open")
	}
	return nil
}

// ownerOf gives the user whose a file is.
func ownerOf(path string) (int, error) {
	about, err := os.Stat(path)
	if err != nil {
		return 0, err
	}
	return int(about.Sys().(*syscall.Stat_t).Uid), nil
}

// holdsIndex says whether one of the listener's processes is seen to have an index open.
func (l listener) holdsIndex() bool {
	for _, process := range l.processes() {
		if device.HoldsIndex(process) {
			return true
		}
	}
	return false
}

// listenersOf gives who listens at the far end of a connection on this machine.
func listenersOf(connection net.Conn) ([]listener, error) {
	switch one := connection.(type) {
	case *net.UnixConn:
		return peerOf(one)
	case *net.TCPConn:
		return listenersAt(one.RemoteAddr().(*net.TCPAddr))
	}
	return nil, fmt.Errorf("a connection of another kind: %T", connection)
}

// peerOf gives who listens at a socket of the file system.
func peerOf(connection *net.UnixConn) ([]listener, error) {
	raw, err := connection.SyscallConn()
	if err != nil {
		return nil, err
	}
	var said *unix.Ucred
	var failed error
	err = raw.Control(func(number uintptr) {
		said, failed = unix.GetsockoptUcred(int(number), unix.SOL_SOCKET, unix.SO_PEERCRED)
	})
	if err == nil {
		err = failed
	}
	if err != nil {
		return nil, err
	}
	return []listener{{int(said.Uid), func() []int { return []int{int(said.Pid)} }}}, nil
}

// listenersAt gives who listens at an address of this machine.
func listenersAt(at *net.TCPAddr) ([]listener, error) {
	listeners := []listener{}
	found, err := listening.At(at)
	for _, socket := range found {
		inode := socket.Inode
		listeners = append(listeners, listener{socket.User, func() []int { return processesWith("socket:[" + inode + "]") }})
	}
	return listeners, err
}

// processesWith gives the processes that have something open, as far as they may be seen.
func processesWith(what string) []int {
	processes := []int{}
	found, _ := filepath.Glob("/proc/[0-9]*/fd")
	for _, path := range found {
		process, err := strconv.Atoi(filepath.Base(filepath.Dir(path)))
		if err == nil && device.HasOpen(process, func(target string) bool { return target == what }) {
			processes = append(processes, process)
		}
	}
	return processes
}
