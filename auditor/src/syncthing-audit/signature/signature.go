// Package signature has ssh-keygen sign parts and check whose signatures these are. So no cryptography is written here, and a person can do both
// by hand. A signature stands in a file of its own, beside the part.
package signature

import (
	"bytes"
	"errors"
	"fmt"
	"io"
	"os"
	"os/exec"
	"runtime"
	"strings"
	"syscall"
	"time"

	"syncthing-audit/bounded"
	"syncthing-audit/leftover"
)

// Namespace is what ssh-keygen calls that for which a signature is: one for anything else doesn't serve.
const Namespace = "syncthing-audit"

// Suffix is what the name of a signature has behind that of its part.
const Suffix = ".sig"

// program is what signs and checks.
const program = "ssh-keygen"

// mostBytes is how long a signature or a key may be, and what ssh-keygen tells; mostOfSigners how long a list of signers.
const (
	mostBytes     = 64 << 10
	mostOfSigners = 4 << 20
)

// leastTime is how long ssh-keygen may take for a small file. For a large one it has a second more for each so many bytes.
var leastTime = time.Minute

const bytesPerSecond = 4 << 20

// run runs ssh-keygen on a file's bytes, with other files as its numbers 3 and up, and gives what it writes. It has no terminal, so it asks
// nobody for anything.
func run(on *os.File, others []*os.File, words ...string) ([]byte, error) {
	about, err := on.Stat()
	if err != nil {
		return nil, err
	}
	if _, err := on.Seek(0, io.SeekStart); err != nil {
		return nil, err
	}
	command := exec.Command(program, words...)
	command.Stdin, command.ExtraFiles = on, others
	command.Env = append(os.Environ(), "SSH_ASKPASS_REQUIRE=never", "LC_ALL=C")
	command.SysProcAttr = &syscall.SysProcAttr{Setsid: true, Pdeathsig: syscall.SIGTERM} // of the thread that starts it
	runtime.LockOSThread()
	defer runtime.UnlockOSThread()
	time := leastTime + time.Second*time.Duration(about.Size()/bytesPerSecond)
	var output bytes.Buffer
	told, err := bounded.Run(command, &output, bounded.Limits{Output: mostBytes, Told: mostBytes, Silence: time, Whole: time})
	return output.Bytes(), why(told, err)
}

// why gives what is wrong where ssh-keygen didn't do what it was to do, in its words where it has any.
func why(told string, err error) error {
	var ended *exec.ExitError
	var passed *bounded.Passed
	switch {
	case err == nil:
		return nil
	case errors.Is(err, exec.ErrNotFound):
		return errors.New("ssh-keygen isn't there. Debian's package openssh-client has it")
	case errors.As(err, &passed):
		return fmt.Errorf("ssh-keygen %w, and was ended", passed)
	case !errors.As(err, &ended):
		return fmt.Errorf("ssh-keygen can't be run: %w", err)
	}
	lines := strings.FieldsFunc(told, func(letter rune) bool { return letter == '\n' || letter == '\r' })
	return fmt.Errorf("ssh-keygen ended with %v: %s", ended, strings.Join(lines, "; "))
}

// keep gives bytes in a file of this run alone.
func keep(data []byte) (*os.File, error) {
	file, err := leftover.Unnamed()
	if err != nil {
		return nil, err
	}
	if _, err := file.Write(data); err != nil {
		file.Close()
		return nil, err
	}
	return file, nil
}

// isOthers says whether a file belongs to another user than this one and root.
func isOthers(about os.FileInfo, user int) bool {
	owner := int(about.Sys().(*syscall.Stat_t).Uid)
	return owner != 0 && owner != user
}
