package gather

import "sync"

// batchLength is how many things go from the reading to the one who asks at once.
const batchLength = 64

// puller turns a reading that gives things one by one into one that is asked for them. It reads ahead.
type puller[T any] struct {
	batches chan []T
	batch   []T
	stopped chan struct{}
	stop    sync.Once
	isOver  bool  // whether the batches are at their end
	err     error // once they are
}

// pull begins a reading.
func pull[T any](read func(take func(T) bool) error) *puller[T] {
	p := &puller[T]{batches: make(chan []T, 2), stopped: make(chan struct{})}
	go func() {
		defer close(p.batches)
		batch := make([]T, 0, batchLength)
		send := func() bool {
			select {
			case p.batches <- batch:
				batch = make([]T, 0, batchLength)
				return true
			case <-p.stopped:
				return false
			}
		}
		p.err = read(func(item T) bool {
			batch = append(batch, item)
			return len(batch) < batchLength || send()
		})
		if p.err == nil && len(batch) > 0 {
			send()
		}
	}()
	return p
}

// peek gives the next thing without taking it; nothing at the end.
func (p *puller[T]) peek() *T {
	for len(p.batch) == 0 {
		next, is := <-p.batches
		if !is {
			p.isOver = true
			return nil
		}
		p.batch = next
	}
	return &p.batch[0]
}

// failure gives why the reading ended too early, once peek has come to its end.
func (p *puller[T]) failure() error {
	if !p.isOver {
		return nil
	}
	return p.err
}

// take takes what peek gives.
func (p *puller[T]) take() { p.batch = p.batch[1:] }

// close ends the reading, and waits until nothing of it runs any more.
func (p *puller[T]) close() {
	p.stop.Do(func() { close(p.stopped) })
	for range p.batches {
	}
}
