package wire

import (
	"context"
	"fmt"
	"time"
)

// Index waits until all of the device's index is had that it said it has, and gives the index as it is then.
func (s *Shared) Index(ctx context.Context) (*Index, error) {
	c := s.over
	due, _ := s.Of(c.Device)
	defer c.keepPace("records", c.limits.IndexWhole, func() gave { return gave{c.spent.records, c.spent.bytes} })()
	for {
		index, heard, failure := s.state(due.Sequence)
		switch {
		case index != nil:
			return index, nil
		case failure != nil:
			return nil, failure
		}
		quiet := time.NewTimer(time.Until(heard.Add(c.limits.IndexQuiet)))
		select {
		case <-c.news:
		case <-c.ended:
		case <-ctx.Done():
			quiet.Stop()
			return nil, fmt.Errorf("%w: %v", TooLate, ctx.Err())
		case <-quiet.C:
			return nil, s.notWhole(due.Sequence)
		}
		quiet.Stop()
	}
}

// state gives the index as it is now if it goes up to a sequence, when a part of it came last, and why no more comes.
func (s *Shared) state(due int64) (*Index, time.Time, error) {
	c := s.over
	c.mutex.Lock()
	defer c.mutex.Unlock()
	if had := s.taker.index; had.Highest >= due {
		index, err := had.snapshot()
		if err != nil {
			return nil, c.heard, err
		}
		return index, c.heard, nil
	}
	return nil, c.heard, c.failure
}

// notWhole says how far an index goes of which nothing more comes.
func (s *Shared) notWhole(due int64) error {
	c := s.over
	c.mutex.Lock()
	defer c.mutex.Unlock()
	return fmt.Errorf("%w: up to sequence %d of %d, and nothing more came in %v", NotWhole, s.taker.index.Highest, due, c.limits.IndexQuiet)
}
