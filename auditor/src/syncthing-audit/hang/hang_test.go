package hang

import (
	"testing"
	"time"
)

// What isn't over in time is ended, and what is isn't.
func TestWatch(t *testing.T) {
	ended := make(chan bool)
	watch(time.Millisecond, func() { ended <- true })
	<-ended
	over := watch(time.Hour, func() { t.Error("it was over") })
	if !over() {
		t.Error("what is over is watched")
	}
}
