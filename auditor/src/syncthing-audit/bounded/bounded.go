// Package bounded runs a command of which another machine chooses what it writes, how much, and when. What is over a limit ends the command, and
// is an error that says so.
package bounded

import (
	"bytes"
	"fmt"
	"io"
	"os"
	"os/exec"
	"sync/atomic"
	"syscall"
	"time"
)

// Limits are those of a command.
type Limits struct {
	Output  int64         // bytes on standard output
	Told    int64         // bytes on standard error
	Silence time.Duration // without a byte on either of them; each byte begins it anew
	Whole   time.Duration // from its begin to its end, whatever it writes

	Step func(line string) bool // is given each line of standard error, and says whether that tells how far the command is: such lines aren't kept or counted
}

// Passed says which limit a command passed. It was ended for that.
type Passed struct{ what string }

func (p *Passed) Error() string { return p.what }

// secondsOfGrace is how long a command that is told to end may take for it.
const secondsOfGrace = 5

// running is a command under way.
type running struct {
	command *exec.Cmd
	limits  Limits
	pipes   []*os.File // from which its output is read
	began   time.Time
	heard   atomic.Int64 // how long after that a byte came last, in nanoseconds
	flows   chan error   // one for each pipe that is at its end
	failed  error        // why it is ended
}

// Run runs a command, has what it writes go to a writer, and gives what it says on standard error. The command has ended when Run has, and
// so has all that reads from it, even if children of the command still hold its output open.
func Run(command *exec.Cmd, output io.Writer, limits Limits) (string, error) {
	run := &running{command: command, limits: limits, began: time.Now(), flows: make(chan error)}
	var told bytes.Buffer
	if err := run.start(output, &told); err != nil {
		return "", err
	}
	ended := run.await()
	if run.failed != nil {
		return "", run.failed
	}
	return told.String(), ended
}

// pipe makes one.
var pipe = os.Pipe

// start starts the command with pipes to its output.
func (r *running) start(output, told io.Writer) error {
	var ends []*os.File
	defer func() { closeAll(ends) }()
	for len(ends) < 2 {
		from, end, err := pipe()
		if err != nil {
			closeAll(r.pipes)
			return err
		}
		r.pipes, ends = append(r.pipes, from), append(ends, end)
	}
	r.command.Stdout, r.command.Stderr = ends[0], ends[1]
	if err := r.command.Start(); err != nil {
		closeAll(r.pipes)
		return err
	}
	go r.flow(r.pipes[0], &sink{to: output, whole: r.limits.Output, left: r.limits.Output, called: "output", hear: r.hear})
	go r.flow(r.pipes[1], &sink{to: told, whole: r.limits.Told, left: r.limits.Told, called: "standard error", hear: r.hear, step: r.limits.Step})
	return nil
}

func closeAll(files []*os.File) {
	for _, file := range files {
		file.Close()
	}
}

// sink takes what comes out of a pipe, up to a limit.
type sink struct {
	to          io.Writer
	left, whole int64 // bytes that may come
	called      string
	hear        func()                 // is called whenever bytes come
	step        func(line string) bool // nothing where no line is looked at
	line        []byte                 // the beginning of one that isn't whole yet
}

// mostOfStep is how many bytes of a line wait at most for its end: one that tells how far a command is has less.
const mostOfStep = 256

// Write takes bytes as they come.
func (s *sink) Write(data []byte) (int, error) {
	s.hear()
	return len(data), s.take(data)
}

func (s *sink) take(data []byte) error {
	if s.step == nil {
		return s.keep(data)
	}
	s.line = append(s.line, data...)
	for {
		line, rest, isWhole := bytes.Cut(s.line, []byte("\n"))
		if !isWhole {
			break
		}
		if !s.step(string(line)) {
			if err := s.keep(s.line[:len(line)+1]); err != nil {
				return err
			}
		}
		s.line = rest
	}
	if len(s.line) <= mostOfStep {
		return nil
	}
	long := s.line
	s.line = nil
	return s.keep(long)
}

// end takes what is left.
func (s *sink) end() error { return s.keep(s.line) }

// keep gives bytes on, unless they are over the limit.
func (s *sink) keep(data []byte) error {
	if s.left -= int64(len(data)); s.left < 0 {
		return &Passed{fmt.Sprintf("wrote more %s than any real device does (over %d bytes)", s.called, s.whole)}
	}
	_, err := s.to.Write(data)
	return err
}

// hear notes that something came.
func (r *running) hear() { r.heard.Store(int64(time.Since(r.began))) }

// flow takes what comes out of a pipe.
func (r *running) flow(from *os.File, to *sink) {
	_, err := io.Copy(to, from)
	if err == nil {
		err = to.end()
	}
	r.flows <- err
}

// await waits for the end of the command and of its output, and ends it where a limit is passed. It gives how the command ended.
func (r *running) await() error {
	defer closeAll(r.pipes)
	waited := make(chan error)
	go func() { waited <- r.command.Wait() }()
	silence, whole := time.NewTimer(r.limits.Silence), time.After(r.limits.Whole)
	var ended error
	for left := 1 + len(r.pipes); left > 0; {
		select {
		case ended = <-waited:
			left--
		case err := <-r.flows:
			left--
			r.stop(err)
		case <-silence.C:
			if rest := r.limits.Silence - time.Since(r.began) + time.Duration(r.heard.Load()); rest > 0 {
				silence.Reset(rest)
			} else {
				r.stop(&Passed{fmt.Sprintf("wrote nothing for %v", r.limits.Silence)})
			}
		case <-whole:
			r.stop(&Passed{fmt.Sprintf("wasn't done after %v", r.limits.Whole)})
		}
	}
	return ended
}

// stop ends the command for a reason, if there is one and it isn't ended yet: it is told to, and killed where it doesn't.
func (r *running) stop(why error) {
	if why == nil || r.failed != nil {
		return
	}
	r.failed = why
	closeAll(r.pipes)
	r.command.Process.Signal(syscall.SIGTERM)
	time.AfterFunc(secondsOfGrace*time.Second, func() { r.command.Process.Kill() })
}
