// Package process is what the program is to its system: its descriptors, its memory, whose it is, and how it crashes.
package process

import (
	"os"
	"runtime/debug"
	"syscall"
)

// FillDescriptors has the standard input and error that are closed lead to nothing, as OpenSSH's sanitise_stdfd does. Else the next file that is
// opened, as of an index, would be one of them. By now Go may have opened something there, so the program begins anew. Without an output there
// is an error: an answer that nobody reads isn't one.
func FillDescriptors() error {
	if isClosed(syscall.Stdout) {
		return syscall.EBADF
	}
	filled := false
	for _, number := range []int{syscall.Stdin, syscall.Stderr} {
		if !isClosed(number) {
			continue
		}
		filled = true
		nothing, err := syscall.Open("/dev/null", syscall.O_RDWR, 0)
		if err != nil {
			return err
		}
		if nothing == number {
			continue
		}
		if err := syscall.Dup3(nothing, number, 0); err != nil {
			return err
		}
		syscall.Close(nothing)
	}
	if !filled {
		return nil
	}
	return syscall.Exec("/proc/self/exe", os.Args, os.Environ())
}

// isClosed says whether the program was started without a descriptor. What it has opened there itself is closed once another program is started,
// which nothing is that it was started with.
func isClosed(number int) bool {
	flags, _, err := syscall.Syscall(syscall.SYS_FCNTL, uintptr(number), syscall.F_GETFD, 0)
	return err == syscall.EBADF || err == 0 && flags&syscall.FD_CLOEXEC != 0
}

// TakeStandardOutput gives the program's output to the caller and sends everything else that is printed to standard
// error: Syncthing's packages log to standard output.
func TakeStandardOutput() (*os.File, error) {
	number, err := syscall.Dup(syscall.Stdout)
	if err != nil {
		return nil, err
	}
	if err := syscall.Dup3(syscall.Stderr, syscall.Stdout, 0); err != nil {
		return nil, err
	}
	return os.NewFile(uintptr(number), "standard output"), nil
}

// AbortWhereItCrashes has a crash end the program by the signal of an abort, since Go's own status for that is the one of a refusal. No core is
// written: it would have names and hashes.
func AbortWhereItCrashes() {
	_ = syscall.Setrlimit(syscall.RLIMIT_CORE, &syscall.Rlimit{})
	debug.SetTraceback("crash")
}
