package disk

import (
	"errors"
	"sync"

	"syncthing-audit/part"
)

// WeightOfName is what a name without hashes takes of a queue's room.
const WeightOfName = 32

// MostWaiting is how much may wait to be given on: about as many hashes of 32 bytes.
const MostWaiting = 1 << 18

// Pending is a name whose file is being hashed, if it is one.
type Pending struct {
	Line   *part.Name
	Job    *Job
	Weight int
}

// Finish waits for the hashes.
func (p *Pending) Finish() *part.Name {
	if p.Job == nil {
		return p.Line
	}
	contents, differ, data, err := p.Job.Wait()
	switch {
	case err == nil:
		p.Line.Disk.Contents, p.Line.Disk.Differ, p.Line.Disk.Data = contents, differ, data
	case IsDamage(err):
		p.Job.Lose(p.Line, err)
	case errors.Is(err, ErrChanged):
		p.leaveOut(part.Changing, err)
	default:
		p.leaveOut(part.Unreadable, err)
	}
	return p.Line
}

// leaveOut says why the file isn't hashed.
func (p *Pending) leaveOut(kind string, err error) {
	p.Line.Out = append(p.Line.Out, part.LeftOut{Kind: kind, Why: err.Error(), Bytes: p.Line.Disk.Size})
}

// Queue holds names in their order, as many as memory allows.
type Queue struct {
	mutex   sync.Mutex
	changed *sync.Cond
	waiting []*Pending
	weight  int
	ended   bool
	stopped bool
	err     error
}

// NewQueue gives an empty one.
func NewQueue() *Queue {
	queue := &Queue{}
	queue.changed = sync.NewCond(&queue.mutex)
	return queue
}

// Reserve waits until there is room for so much, and says whether it is wanted still.
func (q *Queue) Reserve(weight int) bool {
	q.mutex.Lock()
	defer q.mutex.Unlock()
	for !q.stopped && q.weight > 0 && q.weight+weight > MostWaiting {
		q.changed.Wait()
	}
	q.weight += weight
	return !q.stopped
}

// Put puts a name at the end.
func (q *Queue) Put(pending *Pending) {
	q.mutex.Lock()
	defer q.mutex.Unlock()
	q.waiting = append(q.waiting, pending)
	q.changed.Broadcast()
}

// End says that no more names come, and why.
func (q *Queue) End(err error) {
	q.mutex.Lock()
	defer q.mutex.Unlock()
	q.ended, q.err = true, err
	q.changed.Broadcast()
}

// Stop says that nothing is wanted any more, and waits until no more names come.
func (q *Queue) Stop() {
	q.mutex.Lock()
	defer q.mutex.Unlock()
	q.stopped = true
	q.changed.Broadcast()
	for !q.ended {
		q.changed.Wait()
	}
}

// Next takes the first name; nothing at the end, with its reason.
func (q *Queue) Next() (*Pending, error) {
	q.mutex.Lock()
	defer q.mutex.Unlock()
	for len(q.waiting) == 0 && !q.ended {
		q.changed.Wait()
	}
	if len(q.waiting) == 0 {
		return nil, q.err
	}
	pending := q.waiting[0]
	q.waiting = q.waiting[1:]
	q.weight -= pending.Weight
	q.changed.Broadcast()
	return pending, nil
}

// Waiting says how many names wait, and how much room they take.
func (q *Queue) Waiting() (names, weight int) {
	q.mutex.Lock()
	defer q.mutex.Unlock()
	return len(q.waiting), q.weight
}

// Drain gives on each name once its file is hashed, and counts it. Texts that have the path are told without it. It says whether there is none left, and
// why then nothing more came; else why a name wasn't taken.
func (q *Queue) Drain(path string, end *part.End, take func(part.Line) error) (isOver bool, err error) {
	for {
		next, err := q.Next()
		if next == nil {
			return true, err
		}
		line := next.Finish()
		line.HidePaths(path)
		end.Names++
		if line.Disk != nil && line.Disk.Contents != nil && line.Disk.Lost == "" {
			end.Bytes += line.Disk.Size - line.Disk.Unread
		}
		if err := take(part.Line{Name: line}); err != nil {
			return false, err
		}
	}
}
