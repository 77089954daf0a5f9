package command

import (
	"bytes"
	"io"
	"math/rand"
	"os"
	"path/filepath"
	"strings"
	"testing"

	"syncthing-audit/disk"
	"syncthing-audit/exit"
	"syncthing-audit/inputs"
	"syncthing-audit/part"
	"syncthing-audit/signature"
)

// writtenPart writes what a stream has as a part, and gives its path.
func writtenPart(t *testing.T, room, name string, from part.Stream) string {
	t.Helper()
	var text bytes.Buffer
	writer, err := part.NewWriter(&text, from.Head())
	for err == nil {
		var line part.Line
		if line, err = from.Next(); err == nil {
			err = writer.Take(line)
		}
	}
	if err == io.EOF {
		err = writer.Close()
	}
	path := filepath.Join(room, name)
	if err == nil {
		err = os.WriteFile(path, text.Bytes(), 0o600)
	}
	if err != nil {
		t.Fatal(err)
	}
	return path
}

// Halves are joined by their devices, whichever their order is. One without the other is refused, as are two of one kind, one of another walk and one
// that is cut off.
func TestHalvesAsParts(t *testing.T) {
	pool, room := disk.NewPool(1), t.TempDir()
	defer pool.Close()
	var parts, others []string
	for _, device := range drawHeard(t, rand.New(rand.NewSource(7))) {
		for number, to := range []*[]string{&parts, &others} {
			disks := walked(t, pool, device)
			name := device.id + string(rune('0'+number))
			*to = append(*to, writtenPart(t, room, name+".part", wireOf(t, device, disks.Head().Half.ID)), writtenPart(t, room, name+".disk", disks))
		}
	}
	whole, err := os.ReadFile(parts[1])
	if err != nil {
		t.Fatal(err)
	}
	cut := filepath.Join(room, "cut")
	if err := os.WriteFile(cut, whole[:len(whole)/2], 0o600); err != nil {
		t.Fatal(err)
	}
	replaced := func(place int, path string) []string {
		words := append([]string{}, parts...)
		words[place] = path
		return words
	}
	for told, given := range map[string][]string{
		"":                              {parts[3], parts[0], parts[5], parts[4], parts[1], parts[2]},
		"has no disks":                  {parts[0], parts[2], parts[3], parts[4], parts[5]},
		"is of disks alone":             {parts[1], parts[2], parts[3], parts[4], parts[5]},
		"of the same half of the same":  append(append([]string{}, parts...), others[1]),
		"came after another walk":       replaced(1, others[1]),
		"the part ends in the middle: ": replaced(1, cut),
	} {
		var log strings.Builder
		words := append([]string{"export", "--leave-out", "ignored,unknown,records", "--into", filepath.Join(t.TempDir(), "documents")}, given...)
		status := Run(words, io.Discard, &log)
		if (status == exit.Done) != (told == "") || !strings.Contains(log.String(), told) {
			t.Errorf("%q: %d, %s", told, status, log.String())
		}
	}
}

// 'disk' signs what it writes, and both halves of a device are checked.
func TestSignedHalves(t *testing.T) {
	room, lines, parts := t.TempDir(), "", []string{}
	for _, device := range drawHeard(t, rand.New(rand.NewSource(9)))[:2] {
		key, path := filepath.Join(room, device.id+".key"), filepath.Join(room, device.id+".disk")
		_, line, err := signature.Open(key, device.id)
		if err != nil {
			t.Skip(err)
		}
		lines += line + "\n"
		var log strings.Builder
		status := Run([]string{"disk", "--after", device.id + ":" + lookOfTest, "--block-size", "262144", "--sign", key, "-o", path, "docs=" + device.path}, io.Discard, &log)
		if status != exit.Done {
			t.Fatal(log.String())
		}
		head, err := inputs.HeadOf(path)
		if err != nil {
			t.Fatal(err)
		}
		wire := writtenPart(t, room, device.id+".part", wireOf(t, device, head.Half.ID))
		sign(t, key, wire)
		parts = append(parts, path, wire)
	}
	signers := filepath.Join(room, "allowed_signers")
	if err := os.WriteFile(signers, []byte(lines), 0o600); err != nil {
		t.Fatal(err)
	}
	checked := func() (int, string) {
		var log strings.Builder
		status := Run(append([]string{"export", "--leave-out", "absent,ignored,unknown,records", "--allowed-signers", signers, "--into",
			filepath.Join(t.TempDir(), "documents")}, parts...), io.Discard, &log)
		return status, log.String()
	}
	if status, told := checked(); status != exit.Done {
		t.Error(told)
	}
	if err := os.Remove(parts[2] + signature.Suffix); err != nil {
		t.Fatal(err)
	}
	if status, told := checked(); status != exit.Refused || !strings.Contains(told, filepath.Base(parts[2])) {
		t.Errorf("%d, %s", status, told)
	}
}
