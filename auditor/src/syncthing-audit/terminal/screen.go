// Package terminal shows a person how far the work is.
package terminal

import (
	"io"
	"os"
	"sync"

	"golang.org/x/sys/unix"
)

const (
	clearLine    = "\r\x1b[K"
	defaultWidth = 80
)

// screen is a terminal on which the last line says how far the work is. All else that is told stands above that line, whole.
type screen struct {
	to    io.Writer
	width func() int
	mutex sync.Mutex
	line  string // what stands in the last line now
	begun bool   // whether something was told whose line hasn't ended: nothing is shown behind it
}

// OnScreen gives the log as a screen where it is a terminal, and else as it is.
func OnScreen(log *os.File) io.Writer {
	if !Is(log) {
		return log
	}
	return &screen{to: log, width: func() int { return widthOf(log) }}
}

// Is says whether what is written there is read by a person.
func Is(to interface{}) bool {
	if _, is := to.(*screen); is {
		return true
	}
	file, is := to.(*os.File)
	if !is {
		return false
	}
	_, err := unix.IoctlGetTermios(int(file.Fd()), unix.TCGETS)
	return err == nil
}

// ProgressOf gives where steps of the work are told: the log where it is a terminal, and nowhere else.
func ProgressOf(log io.Writer) io.Writer {
	if Is(log) {
		return log
	}
	return io.Discard
}

// widthOf gives how many columns the terminal has.
func widthOf(to *os.File) int {
	size, err := unix.IoctlGetWinsize(int(to.Fd()), unix.TIOCGWINSZ)
	if err != nil || size.Col == 0 {
		return defaultWidth
	}
	return int(size.Col)
}

// fitting cuts a line so that it stays one: a second one couldn't be taken away again.
func fitting(line string, width int) string {
	letters := []rune(line)
	if len(letters) < width {
		return line
	}
	return string(letters[:width-1])
}

// Write tells something above the line.
func (s *screen) Write(data []byte) (int, error) {
	s.mutex.Lock()
	defer s.mutex.Unlock()
	if len(data) == 0 {
		return 0, nil
	}
	s.begun = data[len(data)-1] != '\n'
	if s.line == "" {
		return s.to.Write(data)
	}
	text := clearLine + string(data)
	if s.begun {
		s.line = ""
	}
	_, err := io.WriteString(s.to, text+s.line)
	return len(data), err
}

// show has the last line say this, or be empty.
func (s *screen) show(line string) {
	s.mutex.Lock()
	defer s.mutex.Unlock()
	if line = fitting(line, s.width()); line == s.line || s.begun {
		return
	}
	s.line = line
	_, _ = io.WriteString(s.to, clearLine+line) // nothing depends on it
}
