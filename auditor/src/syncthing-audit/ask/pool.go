package ask

import (
	"sync"

	"syncthing-audit/rows"
)

// Pool has several programs at once answer to pieces.
type Pool struct {
	program Program
	asked   chan *rows.Piece
	workers sync.WaitGroup
	mutex   sync.Mutex
	changed *sync.Cond
	most    int // how many pieces may be asked beyond the one whose reply is due: each is in memory
	take    func(*rows.Piece, *Reply)
	next    int              // the place of the piece whose reply is due
	early   map[int]answered // by their pieces' places
	err     error
}

// answered is a piece with its reply.
type answered struct {
	piece *rows.Piece
	reply *Reply
}

// ahead is how many pieces there are at most for each worker, while the reply to an earlier one is awaited.
const ahead = 3

// NewPool starts so many workers; each reply is given to take, one at a time, in the order of the pieces' places.
func NewPool(program Program, workers int, take func(*rows.Piece, *Reply)) *Pool {
	pool := &Pool{program: program, asked: make(chan *rows.Piece), most: ahead * workers, take: take, early: map[int]answered{}}
	pool.changed = sync.NewCond(&pool.mutex)
	for next := 0; next < workers; next++ {
		pool.workers.Add(1)
		go pool.work()
	}
	return pool
}

func (p *Pool) work() {
	defer p.workers.Done()
	for piece := range p.asked {
		if p.failed() != nil {
			continue
		}
		reply, err := p.program.Answer(piece)
		piece.Drop()
		p.put(answered{piece, reply}, err)
	}
}

// put takes the reply to a piece, and gives on those that are due.
func (p *Pool) put(one answered, err error) {
	p.mutex.Lock()
	defer p.mutex.Unlock()
	defer p.changed.Broadcast()
	if err != nil {
		if p.err == nil {
			p.err = err
		}
		return
	}
	p.early[one.piece.Place] = one
	for {
		due, is := p.early[p.next]
		if !is {
			return
		}
		delete(p.early, p.next)
		p.next++
		p.take(due.piece, due.reply)
	}
}

// failed gives the first error.
func (p *Pool) failed() error {
	p.mutex.Lock()
	defer p.mutex.Unlock()
	return p.err
}

// Ask has a piece answered to, once a worker is free and not too many replies wait for an earlier one.
func (p *Pool) Ask(piece *rows.Piece) error {
	p.mutex.Lock()
	for p.err == nil && piece.Place-p.next >= p.most {
		p.changed.Wait()
	}
	err := p.err
	p.mutex.Unlock()
	if err != nil {
		return err
	}
	p.asked <- piece
	return nil
}

// Close waits for all answers.
func (p *Pool) Close() error {
	close(p.asked)
	p.workers.Wait()
	return p.err
}
