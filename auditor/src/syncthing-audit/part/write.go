package part

import (
	"bufio"
	"compress/gzip"
	"crypto/sha256"
	"encoding/binary"
	"encoding/json"
	"fmt"
	"hash"
	"io"
	"strconv"

	"syncthing-audit/message"
)

// Writer writes a part, in encoding 2, compressed by gzip. It writes no frame that is longer than a reader takes.
type Writer struct {
	buffered  *bufio.Writer
	zipped    *gzip.Writer
	text      *bufio.Writer // into the sum, and into what is zipped
	sum       hash.Hash
	shortener shortener
	mark      []byte // of a frame
	frame     []byte
	folders   uint64
	names     uint64
}

// NewWriter begins a part with its head.
func NewWriter(to io.Writer, head *Head) (*Writer, error) {
	text, err := headText(head)
	if err != nil {
		return nil, fmt.Errorf("refused: %w", err)
	}
	writer := &Writer{buffered: bufio.NewWriterSize(to, 1<<16), sum: sha256.New()}
	writer.zipped, _ = gzip.NewWriterLevel(writer.buffered, gzip.BestSpeed)
	writer.text = bufio.NewWriterSize(io.MultiWriter(writer.sum, writer.zipped), 1<<16)
	if _, err := writer.text.WriteString(begin + strconv.Itoa(encoding) + "\n"); err != nil {
		return nil, err
	}
	return writer, writer.write(frameOfHead, text)
}

// headText gives a head in JSON, or says why there is no such part.
func headText(head *Head) ([]byte, error) {
	if err := checkMany(head); err != nil {
		return nil, err
	}
	text, err := json.Marshal(head)
	if err == nil && len(text) > mostHeadBytes {
		err = fmt.Errorf("what a part says of its folders and devices takes %d bytes here, and a part has at most %d for that: "+
			"--folder chooses folders", len(text), mostHeadBytes)
	}
	return text, err
}

// CheckRoom says why no part has room for a head.
func (h *Head) CheckRoom() error {
	_, err := headText(h)
	return err
}

// Take writes a line. Of a name whose records are too long for one, as those of very many views may be, the part says that they are left out.
func (w *Writer) Take(line Line) error {
	switch {
	case line.Name != nil:
		return w.takeName(line.Name)
	case line.Begin != nil:
		w.folders++
		return w.writeJSON(frameOfBegin, line.Begin)
	}
	return w.writeJSON(frameOfEnd, line.End)
}

// takeName writes a name.
func (w *Writer) takeName(name *Name) error {
	w.names++
	w.frame = appendName(w.frame[:0], w.shortener.shorten(name))
	if length := len(w.frame); length > mostLineBytes {
		w.frame = appendName(w.frame[:0], withoutRecords(name, length))
	}
	return w.write(frameOfName, w.frame)
}

// withoutRecords gives a name in place of one whose line has so many bytes.
func withoutRecords(name *Name, length int) *Name {
	why := fmt.Sprintf("what this device has of it takes %d bytes in a part, which has at most %d of a name", length, mostLineBytes)
	return &Name{Name: name.Name, Out: []LeftOut{{Kind: OddRecord, Why: why}}}
}

func (w *Writer) writeJSON(kind byte, value interface{}) error {
	text, err := json.Marshal(value)
	if err != nil {
		return err
	}
	return w.write(kind, text)
}

// write writes a frame.
func (w *Writer) write(kind byte, text []byte) error {
	if len(text) > mostLineBytes && kind != frameOfHead {
		return fmt.Errorf("refused: a line of the part would have %d bytes, and a part has lines of at most %d", len(text), mostLineBytes)
	}
	w.mark = binary.AppendUvarint(append(w.mark[:0], kind), uint64(len(text)))
	if _, err := w.text.Write(w.mark); err != nil {
		return err
	}
	_, err := w.text.Write(text)
	return err
}

func trailerOf(folders, names uint64) []byte {
	return message.AppendNumber(message.AppendNumber(nil, trailerFolders, folders), trailerNames, names)
}

// Close ends the part.
func (w *Writer) Close() error {
	if err := w.write(frameOfTrailer, trailerOf(w.folders, w.names)); err != nil {
		return err
	}
	if err := w.text.Flush(); err != nil {
		return err
	}
	if _, err := w.zipped.Write(w.sum.Sum(nil)); err != nil {
		return err
	}
	if err := w.zipped.Close(); err != nil {
		return err
	}
	return w.buffered.Flush()
}
