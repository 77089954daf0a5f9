package disk

import (
	"sync"
	"sync/atomic"
)

// Pool hashes files, each once, on several cores.
type Pool struct {
	tasks   chan func()
	workers sync.WaitGroup
	hashing chan struct{} // one for each that hashes at this moment
	hashed  atomic.Int64
	skips   atomic.Bool
	mutex   sync.Mutex
	whole   []*Job // files that are read at once and that no worker has taken yet
	ahead   int    // how many of them a worker has the system read ahead
}

// NewPool starts a pool in which so many hash at once. Twice as many read, so that there is always something to hash.
func NewPool(hashers int) *Pool {
	workers := 2 * hashers
	pool := &Pool{tasks: make(chan func(), hashers), hashing: make(chan struct{}, hashers), ahead: aheadOf(workers)}
	for next := 0; next < workers; next++ {
		pool.workers.Add(1)
		go func() {
			defer pool.workers.Done()
			pool.work()
		}()
	}
	return pool
}

// aheadOf gives how many files each of so many workers has the system read ahead.
func aheadOf(workers int) int {
	switch each := mostOpened / workers; {
	case each > mostAhead:
		return mostAhead
	case each < 1:
		return 1
	default:
		return each
	}
}

// work does tasks until there are none to come. Behind each it hashes files that are read at once, until none waits: so most of them wake nobody.
func (p *Pool) work() {
	reader := newReader(p)
	for task := range p.tasks {
		task()
		for jobs := p.takeWhole(); len(jobs) > 0; jobs = p.takeWhole() {
			reader.do(jobs)
		}
	}
}

// takeWhole takes the first of the files that are read at once, as many as a worker has the system read ahead.
func (p *Pool) takeWhole() []*Job {
	p.mutex.Lock()
	defer p.mutex.Unlock()
	count := len(p.whole)
	if count > p.ahead {
		count = p.ahead
	}
	taken := p.whole[:count:count]
	p.whole = p.whole[count:]
	return taken
}

// putWhole has a file hashed that is read at once. An idle worker is told. Where there is none, tasks wait, and the worker that takes one looks for such
// files behind it.
func (p *Pool) putWhole(job *Job) {
	p.mutex.Lock()
	p.whole = append(p.whole, job)
	p.mutex.Unlock()
	select {
	case p.tasks <- func() {}:
	default:
	}
}

// Close ends the workers once all is hashed that was begun.
func (p *Pool) Close() {
	close(p.tasks)
	p.workers.Wait()
}

// Hashed gives how many bytes were hashed up to now.
func (p *Pool) Hashed() int64 { return p.hashed.Load() }

// Skip has no bytes read from now on. Contents are those of no file then. It is for callers that look for other things
// alone.
func (p *Pool) Skip() { p.skips.Store(true) }

// Begin has the workers hash a file.
func (p *Pool) Begin(file File) *Job {
	job := &Job{file: file}
	if file.Keep {
		job.data = make([]byte, file.Node.Size)
	}
	if file.isWhole() {
		job.pieces.Add(1)
		p.putWhole(job)
		return job
	}
	p.beginPieces(job)
	return job
}

// beginPieces has the workers hash a file piece by piece.
func (p *Pool) beginPieces(job *Job) {
	job.hashes = make([][][][32]byte, len(job.file.BlockSizes))
	for offset := int64(0); offset < job.file.Length() && !job.hasFailed() && !p.skips.Load(); offset += pieceBytes {
		piece := job.pieceAt(offset)
		job.pieces.Add(1)
		p.tasks <- func() {
			defer job.pieces.Done()
			if err := p.hash(job, piece); err != nil {
				job.fail(err)
			}
		}
	}
}
