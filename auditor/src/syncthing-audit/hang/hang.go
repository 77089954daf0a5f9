// Package hang ends a fuzz target's execution that doesn't end by itself: Go has no limit of time for one. Then its input is a find.
package hang

import (
	"fmt"
	"time"
)

// most is how long an execution may take. On a machine that does much else it takes some milliseconds.
const most = 30 * time.Second

// Watch panics where an execution isn't over in time, which what it gives says.
func Watch() (over func() bool) {
	return watch(most, func() { panic(fmt.Sprintf("an execution took over %v", most)) })
}

func watch(most time.Duration, end func()) func() bool { return time.AfterFunc(most, end).Stop }
