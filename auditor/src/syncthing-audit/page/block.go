package page

import "strings"

// Block is a piece of an answer's text: what it is about, and lines on that.
type Block struct {
	Head  string
	Lines []Line
}

// Line is one line, with how deep it stands.
type Line struct {
	Depth int
	Text  string
}

// mostDepth is how deep a line of its own stands at most. What stands deeper goes on with the line above: a terminal has no room beside it.
const mostDepth = 3

// blocksOf gives the pieces of a text: each begins at the edge, and its lines are indented by twos.
func blocksOf(text string) []Block {
	blocks := []Block{}
	for _, line := range strings.Split(text, "\n") {
		words := strings.TrimLeft(line, " ")
		if words == "" {
			continue
		}
		depth := (len(line) - len(words) + 1) / 2
		switch {
		case depth == 0 || len(blocks) == 0:
			blocks = append(blocks, Block{Head: words})
		case depth > mostDepth:
			blocks[len(blocks)-1].goOn(words)
		default:
			last := &blocks[len(blocks)-1]
			last.Lines = append(last.Lines, Line{depth, words})
		}
	}
	return blocks
}

// goOn lengthens the last line.
func (b *Block) goOn(words string) {
	if len(b.Lines) == 0 {
		b.Head += " " + words
		return
	}
	b.Lines[len(b.Lines)-1].Text += " " + words
}
