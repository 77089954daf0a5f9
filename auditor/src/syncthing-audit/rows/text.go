package rows

import (
	"encoding/hex"
	"encoding/json"
	"strconv"
	"strings"
	"unicode/utf8"

	"github.com/syncthing/syncthing/lib/protocol"
	"syncthing-audit/part"
)

// writer writes the records and nodes of one name, as JSON.
type writer struct {
	name      string // as JSON
	withBytes bool
	last      part.Content // mostly that of all records and nodes of a name
	standIn   standIn      // of the last one
	written   []byte
}

// begin begins a name.
func (w *writer) begin(name string) { w.name = quoted(name) }

// quoted gives a text as JSON.
func quoted(text string) string {
	if isPlain(text) {
		return `"` + text + `"`
	}
	var written strings.Builder
	encoder := json.NewEncoder(&written)
	encoder.SetEscapeHTML(false)
	if err := encoder.Encode(text); err != nil {
		panic(err) // a text
	}
	return strings.TrimSuffix(written.String(), "\n")
}

// isPlain says whether a text stands in JSON as it is.
func isPlain(text string) bool {
	for place := 0; place < len(text); place++ {
		if letter := text[place]; letter < 0x20 || letter > 0x7e || letter == '"' || letter == '\\' {
			return false
		}
	}
	return true
}

// standInOf gives the stand-in of a content.
func (w *writer) standInOf(content *part.Content) *standIn {
	if len(w.standIn.text) == 0 || *content != w.last {
		w.last = *content
		w.standIn.take(content)
	}
	return &w.standIn
}

func (w *writer) text(text string) { w.written = append(w.written, text...) }

// number writes a member that is a number. A number 0 is left out, unless the member must be there.
func (w *writer) number(member string, value int64, isNeeded bool) {
	if value == 0 && !isNeeded {
		return
	}
	w.text(`,"`)
	w.text(member)
	w.text(`":`)
	w.written = strconv.AppendInt(w.written, value, 10)
}

// flag writes a member that is true.
func (w *writer) flag(member string, is bool) {
	if is {
		w.text(`,"` + member + `":true`)
	}
}

// addUntilSequence writes a record until its sequence.
func (w *writer) addUntilSequence(record *part.Record) {
	w.text(`{"name":`)
	w.text(w.name)
	w.number("type", int64(record.Type), true)
	w.number("modified_s", record.ModifiedS, true)
	w.number("modified_ns", int64(record.ModifiedNs), false)
	w.text(`,"modified_by":`)
	w.written = strconv.AppendUint(w.written, record.ModifiedBy, 10)
	w.flag("deleted", record.Deleted)
	w.flag("invalid", record.Invalid)
	w.version(record.Version)
	w.text(`,"sequence":`)
}

// addBehindSequence writes what stands behind a record's sequence. A file's block size is the one of the length that the document has.
func (w *writer) addBehindSequence(record *part.Record) {
	switch {
	case record.Content == nil:
	case w.withBytes:
		w.file(record.Content.Size, record.Blocks)
	default:
		stands := w.standInOf(record.Content)
		w.file(int64(len(stands.text)), stands.block[:])
	}
	w.target(record.Target)
	w.text("}")
}

// target writes where a symlink leads to.
func (w *writer) target(target string) {
	if target != "" {
		w.text(`,"target":`)
		w.text(quoted(target))
	}
}

// file writes a file's length, block size and block hashes.
func (w *writer) file(size int64, hashes [][32]byte) {
	w.number("size", size, false)
	w.number("block_size", int64(protocol.BlockSize(size)), true)
	w.blocks(hashes)
}

// version writes a record's version.
func (w *writer) version(counters part.Version) {
	w.text(`,"version":[`)
	for place, counter := range counters {
		if place > 0 {
			w.text(",")
		}
		w.text("[")
		w.written = strconv.AppendUint(w.written, counter[0], 10)
		w.text(",")
		w.written = strconv.AppendUint(w.written, counter[1], 10)
		w.text("]")
	}
	w.text("]")
}

// blocks writes a record's block hashes.
func (w *writer) blocks(hashes [][32]byte) {
	w.text(`,"blocks":[`)
	for place := range hashes {
		if place > 0 {
			w.text(",")
		}
		w.text(`"`)
		w.written = appendHex(w.written, hashes[place][:])
		w.text(`"`)
	}
	w.text("]")
}

// addNode writes what stands on a member's disk, and gives how many bytes of text a file of it has.
func (w *writer) addNode(row []*part.Name, at int) int {
	disk := row[at].Disk
	w.text(`{"name":`)
	w.text(w.name)
	w.number("type", int64(disk.Type), true)
	w.number("modified_s", disk.ModifiedS, true)
	w.number("modified_ns", int64(disk.ModifiedNs), false)
	length := 0
	switch {
	case disk.Contents == nil:
	case w.withBytes:
		length = w.bytes(disk.Data)
	default:
		stands := w.standInOf(contentOnDisk(row, at))
		length = len(stands.text)
		w.text(`,"text":"`) // it has no character that JSON writes otherwise
		w.written = append(w.written, stands.text...)
		w.text(`"`)
	}
	w.target(disk.Target)
	w.text("}")
	return length
}

// bytes writes a file's bytes, and gives how many of them are written as text.
func (w *writer) bytes(data []byte) int {
	text, digits := textOrHex(data)
	if text != "" {
		w.text(`,"text":`)
		w.text(quoted(text))
	}
	if digits != "" {
		w.text(`,"hex":"` + digits + `"`)
	}
	return len(text)
}

// textOrHex gives bytes as text where they are UTF-8 without control characters other than tabs and ends of lines,
// else as hexadecimal digits.
func textOrHex(data []byte) (text, digits string) {
	isControl := func(letter rune) bool { return letter < 0x20 && letter != '\t' && letter != '\n' || letter == 0x7f }
	if utf8.Valid(data) && strings.IndexFunc(string(data), isControl) < 0 {
		return string(data), ""
	}
	return "", hex.EncodeToString(data)
}
