package gather

import (
	"io"
	"sync"

	"syncthing-audit/part"
)

// Stream gives a device's lines as they are read, with no file between.
type Stream struct {
	device  *Device
	head    *part.Head
	lines   chan part.Line
	stopped chan struct{}
	begin   sync.Once
	stop    sync.Once
	err     error // once the lines are at their end
}

// Stream gives the device's lines. Nothing is read before the first of them is asked for.
func (d *Device) Stream() *Stream {
	return &Stream{device: d, head: d.Head(), lines: make(chan part.Line, batchLength), stopped: make(chan struct{})}
}

// Choose says which folders are read; all without it.
func (s *Stream) Choose(isChosen func(id string) bool) {
	folders := s.device.Folders[:0:0]
	abouts := s.head.Folders[:0:0]
	for place, about := range s.head.Folders {
		if isChosen(about.ID) {
			folders = append(folders, s.device.Folders[place])
			abouts = append(abouts, about)
		}
	}
	s.device.Folders, s.head.Folders = folders, abouts
}

// run reads the device.
func (s *Stream) run() {
	defer close(s.lines)
	s.err = s.device.Run(s.head, func(line part.Line) error {
		select {
		case s.lines <- line:
			return nil
		case <-s.stopped:
			return errStopped
		}
	})
}

// Head gives the head of the device's part.
func (s *Stream) Head() *part.Head { return s.head }

// Next gives the next line; io.EOF behind the last.
func (s *Stream) Next() (part.Line, error) {
	s.begin.Do(func() { go s.run() })
	line, is := <-s.lines
	if is {
		return line, nil
	}
	if s.err != nil {
		return part.Line{}, s.err
	}
	return part.Line{}, io.EOF
}

// Close ends the reading, and waits until nothing of it runs any more.
func (s *Stream) Close() {
	s.stop.Do(func() { close(s.stopped) })
	s.begin.Do(func() { close(s.lines) })
	for range s.lines {
	}
}
