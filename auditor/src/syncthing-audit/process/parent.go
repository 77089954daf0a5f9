package process

import (
	"os"
	"runtime"
	"syscall"
	"unsafe"

	"golang.org/x/sys/unix"
	"syncthing-audit/leftover"
)

// parentsDeath is the signal that this program gets once the one that started it is dead, as 'run' has it for its looks; mostly none. The kernel has it for
// the main thread, on which a program is initialised, and forgets it where the program becomes another user.
var parentsDeath, parent = signalOfDeath(), os.Getppid()

func signalOfDeath() syscall.Signal {
	var number int32
	if err := unix.Prctl(unix.PR_GET_PDEATHSIG, uintptr(unsafe.Pointer(&number)), 0, 0, 0); err != nil {
		return 0
	}
	return syscall.Signal(number)
}

// heedParentAgain has the signal come as before, for a thread that lives as long as the program.
func heedParentAgain() error {
	if parentsDeath == 0 {
		return nil
	}
	asked := make(chan error)
	go func() {
		runtime.LockOSThread()
		asked <- unix.Prctl(unix.PR_SET_PDEATHSIG, uintptr(parentsDeath), 0, 0, 0)
		select {}
	}()
	err := <-asked
	if err == nil && os.Getppid() != parent { // it died between
		leftover.End(parentsDeath)
	}
	return err
}
