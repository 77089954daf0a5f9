// Package leftover makes files and directories that a run needs for itself alone, and runs programs for it. It takes them
// away, also where a signal ends the run. What a run that was killed left, the next one takes away.
package leftover

import (
	"os"
	"os/exec"
	"os/signal"
	"path/filepath"
	"sync"
	"syscall"
	"time"

	"golang.org/x/sys/unix"
)

var (
	mutex       sync.Mutex
	paths       = map[string]struct{}{}
	directories []string // directories at paths that were asked for, each behind the one above it
	processes   = map[*os.Process]struct{}{}
)

// statusOfSignal is added to a signal's number, as shells do.
const statusOfSignal = 128

// onDisk is where programs put what is large for a while: /tmp may be in memory, as Debian 13 has it.
const onDisk = "/var/tmp"

// Place gives the directory for what has no room in memory: $TMPDIR, or /var/tmp, or /tmp where nothing can be made there.
func Place() string {
	if os.Getenv("TMPDIR") == "" && unix.Access(onDisk, unix.W_OK|unix.X_OK) == nil {
		return onDisk
	}
	return os.TempDir()
}

// makeAt makes a directory at a path, those above it that aren't there first. Those that it makes are gone in the end unless they are kept, or
// something is in them.
func makeAt(path string) error {
	err := os.Mkdir(path, 0o777)
	if above := filepath.Dir(path); os.IsNotExist(err) && above != path {
		if err := makeAt(above); err != nil {
			return err
		}
		err = os.Mkdir(path, 0o777)
	}
	if about, there := os.Stat(path); os.IsExist(err) && there == nil && about.IsDir() {
		return nil
	}
	if err == nil {
		directories = append(directories, path)
	}
	return err
}

// removeMade takes them away, each before the one above it.
func removeMade() {
	for place := len(directories) - 1; place >= 0; place-- {
		os.Remove(directories[place])
	}
	directories = nil
}

// Run runs a program to its end.
func Run(program *exec.Cmd) error {
	mutex.Lock()
	err := program.Start()
	if err == nil {
		processes[program.Process] = struct{}{}
	}
	mutex.Unlock()
	if err != nil {
		return err
	}
	err = program.Wait()
	mutex.Lock()
	delete(processes, program.Process)
	mutex.Unlock()
	return err
}

// Remove takes away what was made, if it is there still.
func Remove(path string) {
	mutex.Lock()
	defer mutex.Unlock()
	removeWhole(path)
	unlock(path)
	delete(paths, path)
}

// removal takes away a file or a directory; in tests it fails.
var removal = os.RemoveAll

// removeWhole takes away a file or a directory. A disk or a network may fail once: then it is tried again.
func removeWhole(path string) error {
	err := removal(path)
	for round := 0; round < 3 && err != nil; round++ {
		err = removal(path)
	}
	return err
}

// WatchSignals has a signal that ends the program take away all that was made first. A signal that is ignored, as
// under nohup, stays so. That of a pipe that nobody reads any more ends it where the pipe is standard error: whoever writes
// into another one is told by an error.
func WatchSignals() {
	told := make(chan os.Signal, 1)
	for _, kind := range []os.Signal{syscall.SIGINT, syscall.SIGTERM, syscall.SIGHUP, syscall.SIGPIPE} {
		if !signal.Ignored(kind) {
			signal.Notify(told, kind)
		}
	}
	go func() {
		for signal := range told {
			if signal != syscall.SIGPIPE || isUnread(syscall.Stderr) {
				End(signal.(syscall.Signal))
			}
		}
	}()
}

// isUnread says whether nobody reads any more what is written into a pipe.
func isUnread(number int) bool {
	asked := []unix.PollFd{{Fd: int32(number)}}
	_, _ = unix.Poll(asked, 0) // where it fails, it says nothing of the pipe
	return asked[0].Revents&(unix.POLLERR|unix.POLLHUP) != 0
}

// End ends the program as a signal does: all that was made is taken away first.
func End(number syscall.Signal) {
	removeAll()
	os.Exit(statusOfSignal + int(number))
}

// removeAll takes all away, and ends what runs. It keeps the lock, so that nothing is made any more.
func removeAll() {
	mutex.Lock()
	for process := range processes {
		process.Kill()
	}
	removeUntilGone(paths)
	removeMade()
}

// How often what was made is taken away, and how long it is to stay away.
const (
	mostRounds = 100
	quietTime  = 10 * time.Millisecond
)

// removeUntilGone takes all away. Other threads go on meanwhile: an index that is being opened makes its directory anew, say. So all is taken away again
// until nothing comes back. What a thread then does to take away what it made waits for the lock.
func removeUntilGone(paths map[string]struct{}) {
	for round := 0; round < mostRounds; round++ {
		isGone := true
		for path := range paths {
			if _, err := os.Lstat(path); !os.IsNotExist(err) {
				isGone = false
				os.RemoveAll(path)
			}
		}
		if isGone && round > 0 {
			return
		}
		time.Sleep(quietTime)
	}
}
