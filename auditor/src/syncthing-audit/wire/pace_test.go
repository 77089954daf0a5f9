package wire

import (
	"context"
	"errors"
	"fmt"
	"math"
	"os"
	"path/filepath"
	"strings"
	"sync/atomic"
	"testing"
	"time"

	"github.com/syncthing/syncthing/lib/protocol"
	"syncthing-audit/device"
	"syncthing-audit/fixture"
	"syncthing-audit/message"
)

// hurried are limits under which a test sees in a second what takes hours under the usual ones.
func hurried(change func(*Limits)) Limits {
	limits := short()
	limits.Frame, limits.Answer = 20*time.Second, 20*time.Second
	limits.IndexWhole, limits.BytesWhole, limits.Grace, limits.LeastSteps, limits.LeastBytes = time.Minute, time.Minute, 400*time.Millisecond, 1000, 1e6
	change(&limits)
	return limits
}

// slowFiles are the files of a device that is asked for bytes.
const slowFiles = 500

// slow is a device that says little, or without an end.
type slow struct {
	limits   Limits
	sequence uint64      // to which its index goes
	index    func(*fake) // says it; nothing where the observer has it
	prepare  func(*fake)
	slower   time.Duration // how many times longer it pauses
}

// look looks at such a device, and gives how that ended.
func (s *slow) look(t *testing.T) error {
	observer := newObserver(t)
	device := newFake(t, func(f *fake) {
		f.hello()
		f.write(kindClusterConfig, f.config("docs", observer.ID, 42, s.sequence), false)
		_, _, _ = readFrame(f.stream, 1<<20, func() {})
		go s.index(f)
		f.serve()
	})
	device.slower, device.disk = s.slower, map[string]string{}
	files := []file{}
	for number := 0; number < slowFiles; number++ {
		device.disk[fmt.Sprint(number)] = "text"
		files = append(files, recordOf(number))
	}
	var kept *Index
	if s.index == nil {
		s.index, kept = func(*fake) {}, NewIndex(42)
		if err := take(kept, files...); err != nil {
			t.Fatal(err)
		}
	}
	s.prepare(device)
	ended := make(chan error, 1)
	go func() {
		connection, err := dial(observer, device, kept, s.limits)
		if err == nil {
			defer connection.Close()
			err = readAll(connection)
		}
		ended <- err
	}()
	select {
	case err := <-ended:
		return err
	case <-time.After(25 * time.Second):
		device.stream.NetConn().Close()
		return errors.New("it waits for ever")
	}
}

// recordOf gives a record of such a file.
func recordOf(number int) file {
	return file{name: fmt.Sprint(number), data: "text", sequence: uint64(number + 1)}
}

// readAll asks for a device's index and its bytes.
func readAll(connection *Connection) error {
	folder := connection.Folders[0]
	index, err := folder.Index(context.Background())
	if err != nil {
		return err
	}
	return folder.Bytes(context.Background(), index, all, func(device.Entry, Found) error { return nil })
}

// A device that says a little now and then, or without an end, is waited for no longer than any device needs.
func TestASlowDevice(t *testing.T) {
	const all = math.MaxInt
	nothing := func(*fake) {}
	for why, row := range map[string]struct {
		slow slow
		told string
	}{
		"a byte now and then": {slow{hurried(func(l *Limits) { l.Frame = 300 * time.Millisecond; l.Grace = time.Minute }), 2, func(f *fake) {
			for _, letter := range frameOf(kindIndex, indexOf("docs", file{name: "a", sequence: 2})) {
				f.stream.Write([]byte{letter})
				f.pause(50 * time.Millisecond)
			}
		}, nothing, 1}, "i/o timeout"},
		"a record now and then": {slow{hurried(func(*Limits) {}), math.MaxInt64, records(all, 20*time.Millisecond), nothing, 1}, " records, "},
		"an index without an end": {slow{hurried(func(l *Limits) { l.IndexWhole, l.LeastSteps = 700*time.Millisecond, 0.001 }), math.MaxInt64, records(all, time.Millisecond), nothing, 1},
			"not all of its records came in 700ms"},
		"another folder's index": {slow{hurried(func(*Limits) {}), 1, func(f *fake) {
			for f.isThere() {
				f.write(kindIndexUpdate, indexOf("other", file{name: "a", sequence: 1}), false)
				f.pause(20 * time.Millisecond)
			}
		}, nothing, 1}, "0 records, "},
		"an answer now and then": {slow{hurried(func(*Limits) {}), slowFiles, nil, pausing(20 * time.Millisecond), 1}, " answers, "},
		"answers that nobody asked for": {slow{hurried(func(*Limits) {}), slowFiles, nil, func(f *fake) {
			f.after = func(request int) {
				if request == 1 {
					go answerMore(f)
				}
				f.pause(100 * time.Millisecond)
			}
		}, 1}, " answers, "},
		"answers without an end": {slow{hurried(func(l *Limits) { l.BytesWhole, l.LeastSteps = 700*time.Millisecond, 0.001 }), slowFiles, nil, pausing(5 * time.Millisecond), 1},
			"not all of its answers came in 700ms"},
	} {
		why, row := why, row // its own, as all run at once
		t.Run(why, func(t *testing.T) {
			t.Parallel()
			if err := row.slow.look(t); !errors.Is(err, TooLate) || !strings.Contains(err.Error(), row.told) {
				t.Errorf("%v", err)
			}
		})
	}
}

// A device that is slow and gives enough for the time is waited for. Where a busy machine holds it up, a slower one is waited for as well.
func TestADeviceThatIsQuickEnough(t *testing.T) {
	for why, device := range map[string]slow{
		"slow and steady": {hurried(func(l *Limits) { l.Grace, l.LeastSteps = 200*time.Millisecond, 10 }), 100, records(100, 10*time.Millisecond), pausing(3 * time.Millisecond), 1},
		"large records": {hurried(func(l *Limits) { l.Grace, l.LeastBytes = 200*time.Millisecond, 1e4 }), 20, func(f *fake) {
			for number := 0; number < 20; number++ {
				f.write(kindIndexUpdate, indexOf("docs", file{name: strings.Repeat("n", 2000) + fmt.Sprint(number), deleted: true, sequence: uint64(number + 1)}), false)
				f.pause(30 * time.Millisecond)
			}
		}, func(f *fake) { f.lie = func(int64, int) uint64 { return codeNoSuchFile } }, 1},
	} {
		device := device
		t.Run(why, func(t *testing.T) {
			t.Parallel()
			err := device.look(t)
			for ; errors.Is(err, TooLate) && device.slower < 16; err = device.look(t) {
				device.limits.Grace, device.limits.LeastSteps, device.limits.LeastBytes = 4*device.limits.Grace, device.limits.LeastSteps/4, device.limits.LeastBytes/4
				device.slower *= 4
			}
			if err != nil {
				t.Error(err)
			}
		})
	}
}

// records has a device say the records of so many files, with a pause behind each.
func records(count int, pause time.Duration) func(*fake) {
	return func(f *fake) {
		for number := 0; number < count && f.isThere(); number++ {
			f.write(kindIndexUpdate, indexOf("docs", recordOf(number)), false)
			f.pause(pause)
		}
	}
}

// answerMore answers what nobody asked for, again and again.
func answerMore(f *fake) {
	for f.isThere() {
		f.write(kindResponse, message.AppendText(message.AppendNumber(nil, responseID, 1<<30), responseData, make([]byte, 1<<16)), false)
		f.pause(time.Millisecond)
	}
}

// pausing has a device pause before each answer.
func pausing(pause time.Duration) func(*fake) {
	return func(f *fake) { f.after = func(int) { f.pause(pause) } }
}

// With the usual limits a device has the time that real ones need, and no more than two days.
func TestUsualPace(t *testing.T) {
	if Usual.Grace < time.Minute || Usual.LeastSteps > 1 || Usual.LeastBytes > 1<<15 {
		t.Errorf("a slow machine is found too slow: %+v", Usual)
	}
	if Usual.Grace > time.Hour || Usual.IndexWhole > 2*time.Hour || Usual.BytesWhole > 48*time.Hour || Usual.LeastSteps < 0.5 || Usual.LeastBytes < 1<<10 {
		t.Errorf("a device holds the run up: %+v", Usual)
	}
}

// The usual limits are those that the page of the wire tells, and go with the times by which Syncthing itself keeps a connection.
func TestTheLimitsThatThePageTells(t *testing.T) {
	text, err := os.ReadFile(filepath.Join(fixture.Top(t), "docs/wire.md"))
	if err != nil {
		t.Fatal(err)
	}
	for told, is := range map[string]bool{
		"messages of 64 MiB": Usual.Message == 64<<20, "ten million records": Usual.Records == 1e7, "two minutes for an answer": Usual.Answer == 2*time.Minute,
		"two hours for an index": Usual.IndexWhole == 2*time.Hour, "two days for all bytes": Usual.BytesWhole == 48*time.Hour, "After ten minutes a device": Usual.Grace == 10*time.Minute,
		"one record or answer a second": Usual.LeastSteps == 1, "or 16 KiB": Usual.LeastBytes == 16<<10,
	} {
		if !is || !strings.Contains(string(text), told) {
			t.Errorf("%q isn't so, or isn't told", told)
		}
	}
	if Usual.Silence != protocol.ReceiveTimeout || Usual.Ping >= protocol.PingSendInterval || Usual.Ping < protocol.PingSendInterval/2 || Usual.Frame >= Usual.Silence {
		t.Errorf("%+v", Usual)
	}
}

// A device is too slow from a moment behind its grace, and what it has earned by what it gave; or behind its whole time.
func TestWhenADeviceIsTooSlow(t *testing.T) {
	connection := &Connection{limits: Limits{Grace: time.Second, LeastSteps: 10, LeastBytes: 100}}
	for _, row := range []struct {
		gave gave
		most time.Duration
	}{{gave{0, 0}, time.Second}, {gave{10, 0}, 2 * time.Second}, {gave{0, 100}, 2 * time.Second}, {gave{20, 300}, 6 * time.Second}, {gave{1000, 0}, 10 * time.Second}} {
		for _, taken := range []time.Duration{row.most - 1, row.most, row.most + 1} {
			err := connection.tooSlow("records", taken, 10*time.Second, func() gave { return row.gave })
			if (err != nil) != (taken > row.most) || err != nil && !errors.Is(err, TooLate) {
				t.Errorf("%+v in %v: %v", row.gave, taken, err)
			}
		}
	}
}

// Once a watch is ended, a device may be as slow as it is.
func TestAWatchThatIsEnded(t *testing.T) {
	connection := &Connection{limits: Limits{Grace: 20 * time.Millisecond, LeastSteps: 1, LeastBytes: 1}}
	var asked atomic.Int64
	end := connection.keepPace("records", time.Hour, func() gave { asked.Add(1); return gave{steps: 1 << 20} })
	for asked.Load() == 0 {
		time.Sleep(time.Millisecond)
	}
	end()
	until, before := time.Now().Add(10*time.Second), int64(0)
	for asked.Load() > before { // it may be asking for the last time
		if time.Now().After(until) {
			t.Fatalf("it is watched still: %d times", before)
		}
		before = asked.Load()
		time.Sleep(50 * time.Millisecond)
	}
}
