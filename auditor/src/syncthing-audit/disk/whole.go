package disk

import (
	"hash"

	"golang.org/x/exp/slices"
	"syncthing-audit/directory"
	"syncthing-audit/part"
)

const (
	// mostAhead is how many files at most a worker has the system read ahead.
	mostAhead = 32
	// mostOpened is how many files are open at most for that, of all workers together.
	mostOpened = 256
)

// isWhole says whether a file is read at once. It is one block of each size then.
func (f *File) isWhole() bool { return f.Node.Size <= readBytes }

// reader hashes files that are read at once, in one and the same room. It opens some and has the system begin to read them before it takes the bytes of
// the first: so few reads wait for the disk, and a disk that turns may take them in its own order.
type reader struct {
	pool   *Pool
	sum    hash.Hash
	buffer []byte
	begun  []begun
}

// begun is a file that the system reads, or why it doesn't.
type begun struct {
	job  *Job
	file directory.File
	err  error
}

func newReader(pool *Pool) *reader { return &reader{pool: pool, sum: NewSum()} }

// do hashes files, or says in their jobs why they aren't hashed. A pool that skips all bytes opens none.
func (r *reader) do(jobs []*Job) {
	for _, job := range jobs {
		if r.pool.skips.Load() {
			job.pieces.Done()
			continue
		}
		file, err := job.file.begin()
		r.begun = append(r.begun, begun{job, file, err})
	}
	r.readAhead()
	r.hashAll()
	for place, next := range r.begun {
		next.job.pieces.Done()
		r.begun[place] = begun{}
	}
	r.begun = r.begun[:0]
}

// hashAll takes the bytes of the files that were begun, and closes these. It counts among those that hash for all of them at once, and whoever waits is
// told behind the last one: each word between workers takes longer than the hash of a small file's block.
func (r *reader) hashAll() {
	r.pool.hashing <- struct{}{}
	hashed := int64(0)
	for _, next := range r.begun {
		if next.err == nil {
			next.err = r.hash(next.job, next.file)
			next.file.Close()
		}
		if next.err != nil {
			next.job.fail(next.err)
		} else {
			hashed += next.job.file.Node.Size
		}
	}
	<-r.pool.hashing
	r.pool.hashed.Add(hashed)
}

// readAhead has the system read the files that were begun. All of them were let go of by then: Linux gathers what it reads, and settles that each time
// a file is let go of.
func (r *reader) readAhead() {
	for _, next := range r.begun {
		if size := next.job.file.Node.Size; next.err == nil && size > 0 {
			readAhead(next.file, size)
		}
	}
}

// begin opens a file, so that it is read from the disk.
func (f *File) begin() (directory.File, error) {
	file, err := f.open()
	if err == nil && f.Node.Size > 0 {
		letGo(file, 0, f.Node.Size)
	}
	return file, err
}

// listOf gives the SHA-256 of block hashes. Mostly they are those of the record.
func (f *File) listOf(hashes [][32]byte) part.Hash {
	if f.List != nil && slices.Equal(f.Recorded, hashes) {
		return *f.List
	}
	return HashOf(hashes)
}

// hash reads a file, and hashes its one block and the list that has this alone.
func (r *reader) hash(job *Job, file directory.File) error {
	if r.buffer == nil {
		r.buffer = make([]byte, readBytes)
	}
	data := r.buffer[:job.file.Node.Size]
	if err := readAt(file, data, 0); err != nil {
		return err
	}
	r.sum.Reset()
	r.sum.Write(data)
	r.sum.Sum(job.block[0][:0])
	job.list = job.file.listOf(job.block[:])
	copy(job.data, data)
	return nil
}
