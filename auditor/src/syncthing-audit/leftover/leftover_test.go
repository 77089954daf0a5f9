package leftover

import (
	"bufio"
	"errors"
	"fmt"
	"os"
	"os/exec"
	"os/signal"
	"path/filepath"
	"strings"
	"syscall"
	"testing"
	"time"
)

// roomOfChild is the variable that has this test's program make things in a directory and wait for its end.
const roomOfChild = "LEFTOVER_TEST_ROOM"

// TestMain waits for a signal where the program is the child.
func TestMain(tests *testing.M) {
	room := os.Getenv(roomOfChild)
	if room == "" {
		os.Exit(tests.Run())
	}
	WatchSignals()
	if os.Getenv(makingOfChild) != "" {
		makeForever(room)
	}
	if os.Getenv(stagingOfChild) != "" {
		stageAndWait(room)
	}
	directory, _ := Directory()
	os.WriteFile(filepath.Join(directory, "inside"), nil, 0o600)
	if os.Getenv(pipesOfChild) != "" {
		writeIntoPipes()
	}
	Unnamed()
	NewWhole(room)
	staged, _ := NewStaged(filepath.Join(room, "above", "asked"))
	staged.New("file")
	program := exec.Command("sh", "-c", "echo "+directory+"; exec sleep 60")
	program.Stdout = os.Stdout
	fmt.Println(Run(program))
	time.Sleep(time.Minute)
}

// pipesOfChild is the variable that has the child write into pipes that nobody reads.
const pipesOfChild = "LEFTOVER_TEST_PIPES"

// writeIntoPipes writes into a pipe that isn't standard error, which ends nothing, and once the child is told to go on into
// standard error.
func writeIntoPipes() {
	reader, writer, _ := os.Pipe()
	reader.Close()
	_, err := writer.WriteString("lost")
	time.Sleep(100 * time.Millisecond)
	fmt.Println(errors.Is(err, syscall.EPIPE))
	bufio.NewReader(os.Stdin).ReadString('\n')
	fmt.Fprintln(os.Stderr, "lost")
	time.Sleep(time.Minute)
}

// Where nobody reads standard error any more, as behind '2>&1 | head', the program ends and leaves nothing behind.
func TestPipesThatNobodyReads(t *testing.T) {
	room := t.TempDir()
	child := exec.Command(os.Args[0])
	child.Env = append(os.Environ(), roomOfChild+"="+room, pipesOfChild+"=1", "TMPDIR="+room)
	reader, writer, err := os.Pipe()
	if err != nil {
		t.Fatal(err)
	}
	child.Stderr = writer
	output, _ := child.StdoutPipe()
	input, _ := child.StdinPipe()
	if err := child.Start(); err != nil {
		t.Fatal(err)
	}
	writer.Close()
	if told, _ := bufio.NewReader(output).ReadString('\n'); told != "true\n" {
		t.Errorf("another pipe: %q", told)
	}
	reader.Close()
	input.Write([]byte("\n"))
	child.Wait()
	left, err := os.ReadDir(room)
	if err != nil || len(left) != 0 || child.ProcessState.ExitCode() != 128+int(syscall.SIGPIPE) {
		t.Errorf("left are %v, the status is %d", left, child.ProcessState.ExitCode())
	}
}

// A signal leaves nothing behind, and the status tells it.
func TestSignals(t *testing.T) {
	for _, number := range []syscall.Signal{syscall.SIGINT, syscall.SIGTERM, syscall.SIGHUP} {
		if signal.Ignored(number) {
			t.Logf("%v is ignored here, as under nohup, and so it is by the child", number)
			continue
		}
		room := t.TempDir()
		child := exec.Command(os.Args[0])
		child.Env = append(os.Environ(), roomOfChild+"="+room, "TMPDIR="+room)
		output, err := child.StdoutPipe()
		if err == nil {
			err = child.Start()
		}
		if err != nil {
			t.Fatal(err)
		}
		lines := bufio.NewReader(output)
		made, _ := lines.ReadString('\n')
		if _, err := os.Stat(filepath.Join(strings.TrimSpace(made), "inside")); err != nil {
			t.Fatal(err)
		}
		child.Process.Signal(number)
		// The program has the same output: this is its end, too.
		if more, err := lines.ReadString('\n'); err == nil {
			t.Errorf("%v: %s", number, more)
		}
		child.Wait()
		left, err := os.ReadDir(room)
		if err != nil || len(left) != 0 || child.ProcessState.ExitCode() != 128+int(number) {
			t.Errorf("%v: left are %v, the status is %d", number, left, child.ProcessState.ExitCode())
		}
	}
}

func TestRemove(t *testing.T) {
	t.Setenv("TMPDIR", t.TempDir())
	path, err := Directory()
	if err != nil {
		t.Fatal(err)
	}
	Remove(path)
	if err := Run(exec.Command("true")); err != nil || len(processes) != 0 {
		t.Errorf("%v, and %d are noted still", err, len(processes))
	}
	if _, err := os.Stat(path); !os.IsNotExist(err) || len(paths) != 0 {
		t.Errorf("%s is there still, or noted: %v", path, paths)
	}
}

// What may be larger than memory is put where a person says, and else on a disk, where /tmp may be none.
func TestPlace(t *testing.T) {
	room := t.TempDir()
	t.Setenv("TMPDIR", room)
	if Place() != room {
		t.Error(Place())
	}
	os.Unsetenv("TMPDIR")
	probe, err := os.CreateTemp(onDisk, "syncthing-audit-test-")
	expected := "/tmp"
	if err == nil {
		probe.Close()
		os.Remove(probe.Name())
		expected = onDisk
	}
	if Place() != expected {
		t.Errorf("%q in place of %q", Place(), expected)
	}
}
