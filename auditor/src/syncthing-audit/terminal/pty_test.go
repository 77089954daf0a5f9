package terminal

import (
	"fmt"
	"io"
	"math/rand"
	"os"
	"path/filepath"
	"strings"
	"sync/atomic"
	"testing"
	"time"

	"golang.org/x/sys/unix"
)

// aTerminal gives both ends of a terminal with so many columns: what a person sees, and where a program writes.
func aTerminal(t *testing.T, columns uint16) (seen, written *os.File) {
	t.Helper()
	seen, err := os.OpenFile("/dev/ptmx", os.O_RDWR|unix.O_NOCTTY, 0)
	if err != nil {
		t.Skip("this system has no terminals: ", err)
	}
	t.Cleanup(func() { seen.Close() })
	number, err := unix.IoctlGetInt(int(seen.Fd()), unix.TIOCGPTN)
	if err == nil {
		err = unix.IoctlSetPointerInt(int(seen.Fd()), unix.TIOCSPTLCK, 0)
	}
	if err != nil {
		t.Skip("this system has no terminals: ", err)
	}
	if written, err = os.OpenFile(fmt.Sprintf("/dev/pts/%d", number), os.O_RDWR|unix.O_NOCTTY, 0); err != nil {
		t.Skip("this system has no terminals: ", err)
	}
	t.Cleanup(func() { written.Close() })
	if err := unix.IoctlSetWinsize(int(written.Fd()), unix.TIOCSWINSZ, &unix.Winsize{Row: 24, Col: columns}); err != nil {
		t.Fatal(err)
	}
	return seen, written
}

// A terminal is one, and has its columns; one that doesn't say how many has as many as most. What goes to a file goes there as it is, and no step of the work.
func TestARealTerminal(t *testing.T) {
	_, written := aTerminal(t, 40)
	_, silent := aTerminal(t, 0)
	file, err := os.Create(filepath.Join(t.TempDir(), "log"))
	if err != nil {
		t.Fatal(err)
	}
	defer file.Close()
	if widthOf(written) != 40 || widthOf(silent) != defaultWidth || widthOf(file) != defaultWidth {
		t.Errorf("%d, %d and %d columns", widthOf(written), widthOf(silent), widthOf(file))
	}
	screen, is := OnScreen(written).(*screen)
	if !is || screen.width() != 40 || !Is(written) || ProgressOf(written) != io.Writer(written) || ProgressOf(screen) != io.Writer(screen) {
		t.Error("a terminal is none")
	}
	if OnScreen(file) != io.Writer(file) || Is(file) || ProgressOf(file) != io.Discard || ProgressOf(&strings.Builder{}) != io.Discard {
		t.Error("a file is a terminal")
	}
}

// The line is shown on a terminal while the work goes on, and is gone behind it.
func TestTheWorkIsShown(t *testing.T) {
	seen, written := aTerminal(t, 40)
	asked := atomic.Int64{}
	stop := Start(OnScreen(written), func(time.Time) string { asked.Add(1); return "half of it" })
	for try := 0; asked.Load() == 0 && try < 1000; try++ {
		time.Sleep(10 * time.Millisecond)
	}
	stop()
	before, told := asked.Load(), make(chan string)
	go func() {
		text, next := "", make([]byte, 1000)
		for text != clearLine+"half of it"+clearLine && len(text) < 1000 {
			count, err := seen.Read(next)
			if err != nil {
				break
			}
			text += string(next[:count])
		}
		told <- text
	}()
	select {
	case text := <-told:
		if text != clearLine+"half of it"+clearLine || asked.Load() != before {
			t.Errorf("%q", text)
		}
	case <-time.After(10 * time.Second):
		t.Error("the line isn't shown, or isn't taken away")
	}
}

// Steps begin with what is done before and end with what is done behind; then nothing more is told.
func TestStepsFromBeginToEnd(t *testing.T) {
	var told strings.Builder
	done := atomic.Int64{}
	stop := StartSteps(&told, done.Load, 9)
	for try := 0; try < 20; try++ {
		time.Sleep(time.Millisecond)
	}
	done.Store(9)
	stop()
	if lines := strings.Split(told.String(), "\n"); lines[0] != fmt.Sprintf(LineOfStep, 0, 9) && lines[0] != fmt.Sprintf(LineOfStep, 9, 9) || lines[len(lines)-2] != fmt.Sprintf(LineOfStep, 9, 9) {
		t.Errorf("%q", told.String())
	}
}

// What is told above the line is told as it is, and nothing is told of nothing.
func TestWhatIsToldAboveTheLine(t *testing.T) {
	var shown strings.Builder
	to := &screen{to: &shown, width: func() int { return 80 }}
	for _, step := range []struct{ write, line, due string }{
		{"", "", ""}, {"a\n", "", "a\n"}, {"", "one", clearLine + "one"}, {"b\n", "", clearLine + "b\none"}, {"", "one", ""}, {"c", "", clearLine + "c"}, {"", "two", ""}, {"d\n", "", "d\n"},
		{"", "two", clearLine + "two"},
	} {
		shown.Reset()
		if step.line != "" {
			to.show(step.line)
		} else if count, err := to.Write([]byte(step.write)); count != len(step.write) || err != nil {
			t.Errorf("%q: %d, %v", step.write, count, err)
		}
		if shown.String() != step.due {
			t.Errorf("%+v: %q", step, shown.String())
		}
	}
}

// full is a terminal that takes nothing.
type full struct{}

func (full) Write([]byte) (int, error) { return 0, io.ErrShortWrite }

// A terminal that takes nothing is said, be a line there or not.
func TestATerminalThatTakesNothing(t *testing.T) {
	for _, line := range []string{"", "half of it"} {
		to := &screen{to: full{}, width: func() int { return 80 }, line: line}
		if _, err := to.Write([]byte("told\n")); err != io.ErrShortWrite {
			t.Errorf("%q: %v", line, err)
		}
	}
}

// A code is shown line by line where a person reads it, and nowhere else.
func TestACodeIsShown(t *testing.T) {
	room := t.TempDir()
	if err := os.WriteFile(filepath.Join(room, "qrencode"), []byte("#!/bin/sh\necho one; echo \"$4\"\n"), 0o700); err != nil {
		t.Fatal(err)
	}
	t.Setenv("PATH", room+":"+os.Getenv("PATH"))
	var shown, log strings.Builder
	ShowCode(&screen{to: &shown, width: func() int { return 80 }}, "text")
	ShowCode(&log, "text")
	if shown.String() != "one\ntext\n" || log.String() != "" {
		t.Errorf("%q, %q", shown.String(), log.String())
	}
}

// Times and amounts are told in the unit that is next to them.
func TestTimesAndAmounts(t *testing.T) {
	const day = 24 * time.Hour
	for left, told := range map[time.Duration]string{0: "0 s left", 1499 * time.Millisecond: "1 s left", 90*time.Second - 1: "90 s left", 90 * time.Second: "2 min left", 150 * time.Second: "2 min left",
		90*time.Minute - 1: "90 min left", 90 * time.Minute: "2 h left", 5 * time.Hour: "5 h left", 2*day - 1: "48 h left", 2 * day: "2 days left", 30 * day: "30 days left"} {
		if is := leftOf(left); is != told {
			t.Errorf("%v: %s, not %s", left, is, told)
		}
	}
	for of, told := range map[[2]int64]string{{5e6, 0}: "5 MB", {5e6, -1}: "5 MB", {5e6, 4e6}: "5 MB", {5e6, 5e6}: "5 of 5 MB", {0, 1e10 - 1}: "0 of 10000 MB", {0, 1e10}: "0.0 of 10.0 GB",
		{1e10, 1e10}: "10.0 of 10.0 GB", {2e10, 1e10}: "20.0 GB", {-1, 0}: "-0 MB"} {
		if is := amounts(of[0], of[1]); is != told {
			t.Errorf("%v: %s, not %s", of, is, told)
		}
	}
}

// How long the rest takes is what a plain reading of the last minute says.
func TestAPaceIsThatOfTheLastMinute(t *testing.T) {
	known := 0
	for seed := int64(1); seed <= 300; seed++ {
		random, pace, second, done := rand.New(rand.NewSource(seed)), &pace{}, 0, int64(0)
		all := []moment{}
		for tick := random.Intn(30); tick >= 0; tick-- {
			all = append(all, moment{time.Unix(int64(second), 0), done})
			pace.add(time.Unix(int64(second), 0), done)
			second += random.Intn(31) * (1 + random.Intn(3)*random.Intn(2)) // now and then more than a minute
			done += int64(random.Intn(3)) * int64(random.Intn(1000))
		}
		last := all[len(all)-1]
		first := all[0]
		for _, earlier := range all { // the last one that is at least a minute old
			if last.at.Sub(earlier.at) >= windowOfPace && !earlier.at.Before(first.at) {
				first = earlier
			}
		}
		rest := int64(random.Intn(5)) * 100
		spent, moved := last.at.Sub(first.at), last.done-first.done
		left, is := pace.left(rest)
		if due := rest > 0 && moved > 0 && spent >= shortestPace; is != due {
			t.Fatalf("seed %d: known %v: %d bytes in %v", seed, is, moved, spent)
		}
		if is {
			known++
			if due := float64(rest) * spent.Seconds() / float64(moved); left.Seconds() < due-0.001 || left.Seconds() > due+0.001 {
				t.Errorf("seed %d: %v, not %f s", seed, left, due)
			}
		}
	}
	if known < 100 {
		t.Errorf("only %d are known", known)
	}
	slow := &pace{}
	slow.add(time.Unix(0, 0), 0)
	slow.add(time.Unix(2, 0), 1)
	year := int64(365 * 24 * 3600 / 2)
	if left, is := slow.left(year); !is || left != 365*24*time.Hour {
		t.Errorf("a year: %v, %v", left, is)
	}
	if _, is := slow.left(year + 1); is {
		t.Error("more than a year is told")
	}
}

// How much there is in all is told where each place knows it: of one that did more than it said, or said nothing, it isn't known, till it is over.
func TestTheWholeOfPlaces(t *testing.T) {
	for number := 0; number < 6*6; number++ {
		tally, done, whole, isWhole := &Tally{}, int64(0), int64(0), true
		for _, digit := range []int{number % 6, number / 6} {
			at, of, isOver := tally.Add("a"), [2]int64{int64(digit % 2), int64(digit % 3)}, digit > 3
			if tally.Take(at, fmt.Sprintf(LineOfStep, of[0], of[1])); isOver {
				tally.End(at)
				of[1] = of[0]
			}
			done, whole, isWhole = done+of[0], whole+of[1], isWhole && of[1] >= of[0] && (of[1] > 0 || isOver)
		}
		due := "hashed " + amounts(done, whole)
		if !isWhole {
			due = "hashed " + amounts(done, 0)
		}
		if line := tally.Line(time.Unix(0, 0)); line != due {
			t.Errorf("%d: %q, not %q", number, line, due)
		}
	}
}

// Of two places that take equally long the first one is told, of one place none; what isn't known of a place isn't known of all.
func TestTheSlowestOfPlaces(t *testing.T) {
	const giga = 1000000000
	for _, row := range []struct {
		wholes []int64
		told   string
	}{
		{[]int64{20 * giga}, "hashed 1.0 of 20.0 GB, 3 min left"},
		{[]int64{20 * giga, 20 * giga}, "hashed 2.0 of 40.0 GB, 3 min left on a"},
		{[]int64{20 * giga, 30 * giga, 30 * giga}, "hashed 3.0 of 80.0 GB, 5 min left on b"},
		{[]int64{20 * giga, 0}, "hashed 2000 MB, 3 min left on a"},
		{[]int64{giga / 2, 20 * giga}, "hashed 2000 MB, 3 min left on b"},
		{[]int64{10*giga - 1}, "hashed 1000 of 10000 MB, 90 s left"},
		{[]int64{giga + 1}, "hashed 1000 of 1000 MB, 0 s left"},
	} {
		tally := &Tally{}
		for place := range row.wholes {
			tally.Add(string(rune('a' + place)))
		}
		line := ""
		for _, moment := range [][2]int64{{0, 0}, {10, giga}} {
			for place, whole := range row.wholes {
				if !tally.Take(place, fmt.Sprintf(LineOfStep, moment[1], whole)) {
					t.Error("a step isn't taken")
				}
			}
			line = tally.Line(time.Unix(moment[0], 0))
		}
		if line != row.told {
			t.Errorf("%v: %q, not %q", row.wholes, line, row.told)
		}
	}
	fast, line := &Tally{}, ""
	at := fast.Add("a")
	for _, moment := range [][2]int64{{0, 0}, {10, 30 * giga}} { // what is left takes less than a nanosecond
		fast.Take(at, fmt.Sprintf(LineOfStep, moment[1], 30*giga+1))
		line = fast.Line(time.Unix(moment[0], 0))
	}
	if line != "hashed 30.0 of 30.0 GB, 0 s left" {
		t.Errorf("%q", line)
	}
	work := &Work{ToRead: 1}
	work.Read.Store(1)
	if line := work.Line(time.Unix(0, 0)); line != "read 100 % of the parts" {
		t.Errorf("%q", line)
	}
}

// Another machine tells of as many bytes as a device may have, and of no more.
func TestWhatAPlaceMayTell(t *testing.T) {
	tally := &Tally{}
	at := tally.Add("a")
	for _, row := range []struct {
		done, whole int64
		is          bool
	}{{0, 0, true}, {1<<55 - 1, 1<<55 - 1, true}, {1 << 55, 0, false}, {0, 1 << 55, false}, {-1, 0, false}, {0, -1, false}} {
		if is := tally.Take(at, fmt.Sprintf(LineOfStep, row.done, row.whole)); is != row.is {
			t.Errorf("%+v: %v", row, is)
		}
	}
}

// What is read is counted, also where the reader fails behind it.
func TestCounting(t *testing.T) {
	var count atomic.Int64
	text, err := io.ReadAll(Counted{strings.NewReader("four"), &count})
	if err != nil || string(text) != "four" || count.Load() != 4 {
		t.Errorf("%q, %d, %v", text, count.Load(), err)
	}
}
