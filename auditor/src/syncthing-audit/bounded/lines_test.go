package bounded

import (
	"errors"
	"io"
	"math/rand"
	"os"
	"os/exec"
	"reflect"
	"strings"
	"syscall"
	"testing"

	"syncthing-audit/fixture"
)

// plainly gives what is kept of a text whose lines are looked at, and which of them are steps.
func plainly(text string) (kept string, steps []string) {
	for _, line := range strings.SplitAfter(text, "\n") {
		if strings.HasPrefix(line, "step") && strings.HasSuffix(line, "\n") {
			steps = append(steps, line[:len(line)-1])
		} else {
			kept += line
		}
	}
	return kept, steps
}

// In whatever pieces a text comes, the same is kept of it, and the same lines are steps.
func TestLinesInPieces(t *testing.T) {
	random := rand.New(rand.NewSource(1))
	for round := 0; round < 300; round++ {
		whole := ""
		for count := random.Intn(8); count > 0; count-- {
			if random.Intn(2) == 0 { // a step is as long as it may be, or shorter
				whole += "step" + strings.Repeat("x", []int{0, 1, 3, mostOfStep - 5, mostOfStep - 4}[random.Intn(5)]) + "\n"
			} else {
				whole += "told" + strings.Repeat("x", []int{0, 1, mostOfStep - 4, mostOfStep - 3, 3 * mostOfStep}[random.Intn(5)]) + "\n"
			}
		}
		whole = whole[:len(whole)-len(whole)*random.Intn(2)/10] // the last line may have no end
		var kept strings.Builder
		steps := []string(nil)
		to := &sink{to: &kept, left: int64(len(whole)), hear: func() {}, step: func(line string) bool {
			if strings.HasPrefix(line, "step") {
				steps = append(steps, line)
			}
			return strings.HasPrefix(line, "step")
		}}
		for rest := whole; rest != ""; {
			count := 1 + random.Intn(len(rest))
			if written, err := io.WriteString(to, rest[:count]); written != count || err != nil {
				t.Fatal(written, err)
			}
			rest = rest[count:]
		}
		if err := to.end(); err != nil {
			t.Fatal(err)
		}
		if due, isStep := plainly(whole); kept.String() != due || !reflect.DeepEqual(steps, isStep) {
			t.Fatalf("of %q: %q and %q, not %q and %q", whole, kept.String(), steps, due, isStep)
		}
	}
}

// Where there is no pipe for a command's output, or no such command, that is an error, and nothing stays open.
func TestWhatIsNotStarted(t *testing.T) {
	had := pipe
	defer func() { pipe = had }()
	for pipes := 0; pipes <= 2; pipes++ {
		left, before := pipes, fixture.CountOpened(t, fixture.Any)
		pipe = func() (*os.File, *os.File, error) {
			if left--; left < 0 {
				return nil, nil, syscall.EMFILE
			}
			return os.Pipe()
		}
		due := map[bool]error{true: syscall.EMFILE, false: os.ErrNotExist}[pipes < 2]
		if _, err := Run(exec.Command("/nowhere/at-all"), io.Discard, wide); !errors.Is(err, due) {
			t.Errorf("%d pipes: %v", pipes, err)
		}
		if opened := fixture.CountOpened(t, fixture.Any); opened > before {
			t.Errorf("%d pipes: %d are open, and %d were", pipes, opened, before)
		}
	}
}
