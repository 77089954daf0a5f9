package wire

import (
	"fmt"
	"time"
)

// gave is how much a device gave of what it was asked for. What nobody asked for doesn't count.
type gave struct {
	steps int64 // records of its index, or answers
	bytes int64
}

// keepPace ends the connection with a device that takes longer than its whole time, or that gives too little for the time it takes: silence has limits of
// its own, and a device that says a little now and then keeps to them for ever. It gives what ends this watch.
func (c *Connection) keepPace(what string, whole time.Duration, gave func() gave) func() {
	began, isOver := time.Now(), make(chan struct{})
	ticks := time.NewTicker(c.limits.Grace / 20)
	go func() {
		defer ticks.Stop()
		for {
			select {
			case <-isOver:
				return
			case <-c.ended:
				return
			case now := <-ticks.C:
				if err := c.tooSlow(what, now.Sub(began), whole, gave); err != nil {
					c.giveUp(err)
					return
				}
			}
		}
	}()
	return func() { close(isOver) }
}

// tooSlow says why a device that has taken so long isn't waited for any longer.
func (c *Connection) tooSlow(what string, taken, whole time.Duration, of func() gave) error {
	if taken > whole {
		return fmt.Errorf("%w: not all of its %s came in %v", TooLate, what, whole)
	}
	c.mutex.Lock()
	had := of()
	c.mutex.Unlock()
	earned := time.Duration(float64(time.Second) * (float64(had.steps)/c.limits.LeastSteps + float64(had.bytes)/c.limits.LeastBytes))
	if taken > c.limits.Grace+earned {
		return fmt.Errorf("%w: %d %s, %d bytes, came in %v", TooLate, had.steps, what, had.bytes, taken.Round(time.Second))
	}
	return nil
}

// giveUp ends the connection for a reason.
func (c *Connection) giveUp(why error) {
	c.mutex.Lock()
	if c.failure == nil {
		c.failure = why
	}
	c.mutex.Unlock()
	c.stream.NetConn().Close() // at once: TLS would say goodbye to a device that may read nothing
}
