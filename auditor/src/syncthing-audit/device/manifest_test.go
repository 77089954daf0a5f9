package device

import (
	"bufio"
	"bytes"
	"encoding/binary"
	"io"
	"math"
	"os"
	"testing"
)

// A text that is said to be longer than any is no text of the length that its last 32 bits say.
func TestATextThatIsTooLong(t *testing.T) {
	const comparer = 1 // the field has a text
	for _, one := range []struct {
		length uint64
		isText bool
	}{{3, true}, {1<<32 + 3, false}, {1<<63 + 3, false}} {
		entry := binary.AppendUvarint([]byte{comparer}, one.length)
		entry = append(entry, "abc"...)
		made := &manifest{}
		if err := made.read(bufio.NewReader(bytes.NewReader(entry))); (err == nil) != one.isText {
			t.Errorf("%d bytes: %v", one.length, err)
		}
	}
}

// A text may have as many bytes as an 'int' of 32 bits can say; where they aren't there, the manifest ends too early.
func TestTheLongestTextOfAManifest(t *testing.T) {
	for length, told := range map[uint64]string{math.MaxInt32: io.EOF.Error(), math.MaxInt32 + 1: "it has a text of 2147483648 bytes"} {
		if err := passOver(bufio.NewReader(bytes.NewReader(nil)), length); err == nil || err.Error() != told {
			t.Errorf("%d bytes: %v", length, err)
		}
	}
}

// A bit of a manifest that turns over is seen, wherever it is.
func TestAManifestThatIsDamaged(t *testing.T) {
	directory := t.TempDir()
	fill(t, directory)
	path := theOne(t, directory, "MANIFEST-*")
	whole, err := os.ReadFile(path)
	if err != nil {
		t.Fatal(err)
	}
	for at := range whole {
		torn := append([]byte(nil), whole...)
		torn[at] ^= 4
		if err := os.WriteFile(path, torn, 0o600); err != nil {
			t.Fatal(err)
		}
		if said, err := readManifest(directory); err == nil {
			t.Errorf("byte %d of %d: %+v", at, len(whole), said)
		}
	}
}
