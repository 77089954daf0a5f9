package part

// Peeking is a part with the line that is next.
type Peeking struct {
	Stream
	line *Line
}

// NewPeeking gives a part of which nobody has looked at a line.
func NewPeeking(of Stream) *Peeking { return &Peeking{Stream: of} }

// Peek gives the next line without taking it.
func (p *Peeking) Peek() (*Line, error) {
	if p.line == nil {
		next, err := p.Stream.Next()
		if err != nil {
			return nil, err
		}
		p.line = &next
	}
	return p.line, nil
}

// Take takes the line that was looked at.
func (p *Peeking) Take() { p.line = nil }
