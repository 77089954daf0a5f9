package terminal

import (
	"fmt"
	"os"
	"strings"
	"sync/atomic"
	"testing"
	"time"
)

// seconds gives a time of a test.
func seconds(number float64) time.Time {
	return time.Unix(1700000000, 0).Add(time.Duration(number * float64(time.Second)))
}

// How much is done is told of all that is recorded, and the time left by the rate of the last minute. A rate that isn't known tells no time.
func TestTheTimeThatIsLeft(t *testing.T) {
	for _, row := range []struct {
		why     string
		moments [][2]float64 // seconds, and GB
		whole   float64      // GB
		line    string
	}{
		{"at the beginning", [][2]float64{{0, 0}}, 61.3, "hashed 0.0 of 61.3 GB"},
		{"too early", [][2]float64{{0, 0}, {1.9, 1}}, 61.3, "hashed 1.0 of 61.3 GB"},
		{"soon", [][2]float64{{0, 0}, {2, 1}}, 11, "hashed 1.0 of 11.0 GB, 20 s left"},
		{"as the issue has it", [][2]float64{{0, 0}, {60, 12.3}}, 61.3, "hashed 12.3 of 61.3 GB, 4 min left"},
		{"seconds", [][2]float64{{0, 0}, {10, 1}}, 9.9, "hashed 1000 of 9900 MB, 89 s left"},
		{"minutes", [][2]float64{{0, 0}, {10, 1}}, 10.1, "hashed 1.0 of 10.1 GB, 2 min left"},
		{"hours", [][2]float64{{0, 0}, {60, 1}}, 91, "hashed 1.0 of 91.0 GB, 2 h left"},
		{"days", [][2]float64{{0, 0}, {60, 1}}, 1 + 24*60*3, "hashed 1.0 of 4321.0 GB, 3 days left"},
		{"it was faster before the last minute", [][2]float64{{0, 0}, {100, 50}, {130, 50.5}, {160, 51}}, 61, "hashed 51.0 of 61.0 GB, 10 min left"},
		{"nothing comes any more", [][2]float64{{0, 0}, {10, 5}, {40, 5}, {70, 5}}, 61, "hashed 5.0 of 61.0 GB"},
		{"all is done", [][2]float64{{0, 0}, {10, 5}, {20, 61}}, 61, "hashed 61.0 of 61.0 GB"},
		{"more than recorded", [][2]float64{{0, 0}, {10, 62}}, 61, "hashed 62.0 GB"},
		{"it isn't known how much is recorded", [][2]float64{{0, 0}, {10, 5}}, 0, "hashed 5000 MB"},
		{"as good as never", [][2]float64{{0, 0}, {59, 0.000000001}}, 61, "hashed 0.0 of 61.0 GB"},
	} {
		made, done, line := &Work{ToHash: int64(row.whole * 1e9)}, int64(0), ""
		made.Hashed = func() int64 { return done }
		for _, moment := range row.moments {
			done = int64(moment[1] * 1e9)
			line = made.Line(seconds(moment[0]))
		}
		if line != row.line {
			t.Errorf("%s: %q, not %q", row.why, line, row.line)
		}
	}
}

// How long the rest takes isn't known of nothing.
func TestNoPace(t *testing.T) {
	for _, made := range []*pace{{}, {[]moment{{seconds(0), 0}}}} {
		if left, is := made.left(1); is || left != 0 {
			t.Errorf("%v, %v", left, is)
		}
	}
}

// What is noted of a pace is of the last minute, however long the work goes on.
func TestAPaceForgets(t *testing.T) {
	made := &pace{}
	for tick := 0; tick < 10000; tick++ {
		made.add(seconds(float64(tick)/2), int64(tick)*5e6)
	}
	if left, is := made.left(1e9); !is || left.Round(time.Second) != 100*time.Second || len(made.moments) > 130 {
		t.Errorf("%v, %v, %d moments", left, is, len(made.moments))
	}
}

// What a run hasn't got isn't told.
func TestWorkLines(t *testing.T) {
	cases := []struct {
		why  string
		fill func(*Work)
		line string
	}{
		{"nothing yet", func(*Work) {}, ""},
		{"homes alone", func(w *Work) { w.Hashed, w.ToHash = func() int64 { return 1e9 }, 3e9 }, "hashed 1000 of 3000 MB"},
		{"over the wire", func(w *Work) { w.Verb, w.Hashed, w.ToHash = "read", func() int64 { return 1e9 }, 3e9 }, "read 1000 of 3000 MB"},
		{"parts", func(w *Work) {
			w.ToRead = 400
			w.Read.Store(100)
			w.Joined.Store(4096)
		}, "read 25 % of the parts; joined 4096 names"},
		{"the first ones", func(w *Work) {
			w.ToRead = 1
			w.Joined.Store(1)
			w.Asked.Store(1)
		}, "read 0 % of the parts; joined 1 names; syncaudit answered 0 of 1 pieces"},
		{"documents", func(w *Work) {
			w.ToRead = 400
			w.Read.Store(400)
			w.Joined.Store(9000)
			w.Asked.Store(3)
			w.Answered.Store(2)
		}, "read 100 % of the parts; joined 9000 names; syncaudit answered 2 of 3 pieces"},
	}
	for _, row := range cases {
		work := &Work{}
		row.fill(work)
		if line := work.Line(seconds(2)); line != row.line {
			t.Errorf("%s: %q, not %q", row.why, line, row.line)
		}
	}
}

// Of several places all bytes are told together, with how long the slowest one takes, and of which nothing is known.
func TestProgressOfSeveralPlaces(t *testing.T) {
	tally := &Tally{}
	step := func(at int, second, done, whole float64, line string) {
		t.Helper()
		if !tally.Take(at, fmt.Sprintf(LineOfStep, int64(done*1e9), int64(whole*1e9))) {
			t.Error("a step isn't taken")
		}
		if is := tally.Line(seconds(second)); is != line {
			t.Errorf("%q, not %q", is, line)
		}
	}
	laptop := tally.Add("laptop")
	if line := tally.Line(seconds(0)); line != "not known how far: laptop" {
		t.Error(line)
	}
	step(laptop, 0, 0, 20, "hashed 0.0 of 20.0 GB")
	step(laptop, 10, 1, 20, "hashed 1.0 of 20.0 GB, 3 min left")
	nas, old := tally.Add("nas\x1b"), tally.Add("old")
	step(nas, 20, 0, 40, "hashed 1.0 of 60.0 GB, 6 min left on laptop; not known how far: old")
	step(nas, 30, 0.1, 40, `hashed 1.1 of 60.0 GB, 66 min left on nas\x1b; not known how far: old`)
	tally.End(old)
	tally.End(nas) // its disk had less than was recorded
	if line := tally.Line(seconds(31)); line != "hashed 1.1 of 20.1 GB, 10 min left on laptop" {
		t.Error(line)
	}
	step(laptop, 40, 20, 0, "hashed 20.1 GB")
	tally.End(laptop)
	if line := tally.Line(seconds(50)); line != "hashed 20.1 of 20.1 GB" {
		t.Error(line)
	}
	for _, line := range []string{"", "hashed 1 of 2 bytes", LineOfStep, "syncthing-audit: hashed -1 of 2 bytes", "syncthing-audit: hashed 1 of -2 bytes", "syncthing-audit: hashed 1 of 2 bytes more",
		"syncthing-audit: hashed 01 of 2 bytes", "syncthing-audit: hashed 99999999999999999 of 2 bytes", "syncthing-audit: hashed 1 of 99999999999999999999 bytes"} {
		if tally.Take(laptop, line) {
			t.Errorf("%q is taken", line)
		}
	}
}

// terminal is what a terminal shows: its rows, as what is written there leaves them.
type terminal struct {
	rows  []string
	width int
	torn  bool // whether a line went over the width
}

func (s *terminal) Write(data []byte) (int, error) {
	text := string(data)
	for text != "" {
		last := len(s.rows) - 1
		switch {
		case strings.HasPrefix(text, clearLine):
			s.rows[last], text = "", text[len(clearLine):]
		case text[0] == '\n':
			s.rows, text = append(s.rows, ""), text[1:]
		default:
			letter := []rune(text)[0]
			s.rows[last] += string(letter)
			text = text[len(string(letter)):]
			s.torn = s.torn || len([]rune(s.rows[last])) >= s.width
		}
	}
	return len(data), nil
}

// One line is drawn again and again; what else is told stands above it, whole, and at the end it is gone.
func TestTheLineOfATerminal(t *testing.T) {
	shown := &terminal{rows: []string{""}, width: 30}
	to := &screen{to: shown, width: func() int { return shown.width }}
	ticks, stopped, ended, told := make(chan time.Time), make(chan struct{}), make(chan struct{}), make(chan string, 1)
	go func() {
		showLines(to, func(now time.Time) string { return <-told }, ticks, stopped)
		close(ended)
	}()
	tick := func(line string) {
		told <- line
		ticks <- seconds(1)
		for try := 0; len(told) > 0 && try < 1000; try++ {
			time.Sleep(time.Millisecond)
		}
	}
	expect := func(rows ...string) {
		t.Helper()
		to.show(to.line) // once it was drawn
		to.mutex.Lock()
		defer to.mutex.Unlock()
		if strings.Join(shown.rows, "|") != strings.Join(rows, "|") || shown.torn {
			t.Errorf("%q, not %q", shown.rows, rows)
		}
	}
	write := func(text string) {
		t.Helper()
		if count, err := to.Write([]byte(text)); count != len(text) || err != nil {
			t.Error(count, err)
		}
	}
	write("before\n")
	tick("hashed 1 of 3 MB")
	tick("hashed 1 of 3 MB")
	write("laptop: done\nnas: done\n")
	tick("hashed 2 of 3 MB, ")
	tick("hashed 2 of 3 MB, ") // so the one before is drawn
	expect("before", "laptop: done", "nas: done", "hashed 2 of 3 MB, ")
	write("server: ")
	tick("hashed 3 of 3 MB")
	tick("hashed 3 of 3 MB")
	expect("before", "laptop: done", "nas: done", "server: ")
	write("failed\n")
	tick(strings.Repeat("ä", 31))
	tick(strings.Repeat("ä", 31))
	expect("before", "laptop: done", "nas: done", "server: failed", strings.Repeat("ä", 29))
	close(stopped)
	<-ended
	expect("before", "laptop: done", "nas: done", "server: failed", "")
}

// Another program is told each number once, and the last one at the end.
func TestStepsForAnotherProgram(t *testing.T) {
	var told strings.Builder
	var done atomic.Int64
	ticks, stopped, ended := make(chan time.Time), make(chan struct{}), make(chan struct{})
	go func() {
		tellSteps(&told, done.Load, 9, ticks, stopped)
		close(ended)
	}()
	for _, next := range []int64{0, 5, 5, 5} {
		ticks <- seconds(0)
		done.Store(next) // it is read at the next tick, once this one is taken
	}
	ticks <- seconds(0)
	done.Store(9)
	close(stopped)
	<-ended
	if told.String() != "syncthing-audit: hashed 0 of 9 bytes\nsyncthing-audit: hashed 5 of 9 bytes\nsyncthing-audit: hashed 9 of 9 bytes\n" {
		t.Errorf("%q", told.String())
	}
}

// A line that is as long as the terminal is wide would go on in the next one.
func TestFitting(t *testing.T) {
	for width, line := range map[int]string{3: "ab", 4: "abc", 5: "abcd", 6: "abcd"} {
		if is := fitting("abcd", width); is != line {
			t.Errorf("in %d signs: %q", width, is)
		}
	}
}

// Nothing is shown where nobody reads it.
func TestTerminals(t *testing.T) {
	null, err := os.OpenFile(os.DevNull, os.O_RDWR, 0)
	if err != nil {
		t.Fatal(err)
	}
	defer null.Close()
	for _, to := range []interface{}{&strings.Builder{}, null, OnScreen(null)} {
		if Is(to) {
			t.Errorf("%T was taken for a terminal", to)
		}
	}
	if !Is(&screen{}) {
		t.Error("a screen wasn't taken for a terminal")
	}
	Start(null, func(time.Time) string { t.Error("a line is asked for"); return "" })()
}
