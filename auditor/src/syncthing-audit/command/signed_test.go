package command

import (
	"crypto/sha256"
	"fmt"
	"io"
	"os"
	"os/exec"
	"path/filepath"
	"strings"
	"testing"

	"syncthing-audit/exit"
	"syncthing-audit/fixture"
	"syncthing-audit/part"
	"syncthing-audit/signature"
)

// signedParts writes the parts of two devices, each signed by its own key, and a file with both keys.
func signedParts(t *testing.T) (parts []string, signers string) {
	fixture.UseAuditor(t)
	room := t.TempDir()
	lines := ""
	for device := byte(1); device <= 2; device++ {
		all := stoppedParts(device)
		paths := writtenParts(t, filepath.Join(room, string('0'+device)), all)
		key := filepath.Join(room, "key"+string('0'+device))
		_, line, err := signature.Open(key, all[0].Head.Device)
		if err != nil {
			t.Skip(err)
		}
		lines += line + "\n"
		parts = append(parts, paths...)
		sign(t, key, paths[0])
	}
	signers = filepath.Join(room, "allowed_signers")
	if err := os.WriteFile(signers, []byte(lines), 0o600); err != nil {
		t.Fatal(err)
	}
	return parts, signers
}

// sign signs a part anew.
func sign(t *testing.T, key, path string) {
	os.Remove(path + signature.Suffix)
	if told, err := exec.Command("ssh-keygen", "-q", "-Y", "sign", "-n", signature.Namespace, "-f", key, path).CombinedOutput(); err != nil {
		t.Fatal(err, string(told))
	}
}

// checkedBy checks parts, and gives the status, the answer and what else is told.
func checkedBy(parts []string, words ...string) (int, string, string) {
	var output, log strings.Builder
	status := Run(append(append([]string{"check"}, words...), parts...), &output, &log)
	return status, output.String(), log.String()
}

// Parts that are signed as the list says have an answer that doesn't call them unsigned. Without a list it does, in each form.
func TestTheAnswerSaysWhatIsNotSigned(t *testing.T) {
	parts, signers := signedParts(t)
	for form, told := range map[string]string{"--lines": "not signed: the part of ", "--json": `"not_signed":true`, "": "not signed: 2 parts of "} {
		words := strings.Fields(form)
		status, output, log := checkedBy(parts, words...)
		if !strings.Contains(output, told) {
			t.Errorf("%s: %d, %s%s", form, status, output, log)
		}
		checked, output, log := checkedBy(parts, append(words, "--allowed-signers", signers)...)
		if checked != status || output == "" || strings.Contains(output, "not signed") || strings.Contains(output, "not_signed") {
			t.Errorf("%s: %d, %s%s", form, checked, output, log)
		}
	}
}

// With a list, what isn't signed as it says is refused, whichever part it is, and nothing is answered.
func TestUnsignedPartsAreRefused(t *testing.T) {
	for called, change := range map[string]func(parts []string){
		"unsigned":          func(parts []string) { os.Remove(parts[1] + signature.Suffix) },
		"another's in both": func(parts []string) { copyFile(t, parts[0]+signature.Suffix, parts[1]+signature.Suffix) },
		"forged": func(parts []string) {
			forged := stoppedParts(2)
			forged[0].Head.Name = "forged"
			forged[0].write(t, parts[1])
		},
		"bytes behind its end": func(parts []string) {
			file, _ := os.OpenFile(parts[1], os.O_APPEND|os.O_WRONLY, 0)
			io.WriteString(file, "more")
			file.Close()
		},
		"an odd device": func(parts []string) {
			odd := stoppedParts(2)
			odd[0].Head.Device = strings.ToLower(odd[0].Head.Device)
			odd[0].write(t, parts[1])
			sign(t, filepath.Join(filepath.Dir(parts[1]), "key2"), parts[1])
		},
		"the other device's key": func(parts []string) { sign(t, filepath.Join(filepath.Dir(parts[1]), "key1"), parts[1]) },
	} {
		parts, signers := signedParts(t)
		change(parts)
		for _, form := range [][]string{{}, {"--lines"}, {"--json"}} {
			status, output, log := checkedBy(parts, append(form, "--allowed-signers", signers)...)
			if status != exit.Refused || output != "" || !strings.HasPrefix(log, "syncthing-audit: "+parts[1]+": refused: it ") {
				t.Errorf("%s %s: %d, %q, %s", called, form, status, output, log)
			}
		}
	}
}

func copyFile(t *testing.T, from, to string) {
	text, err := os.ReadFile(from)
	if err == nil {
		err = os.WriteFile(to, text, 0o600)
	}
	if err != nil {
		t.Fatal(err)
	}
}

// largePart gives a part that no reader has in its buffers by its head, whose files have this first byte in their hashes.
func largePart(device, first byte) *hostile {
	names := []*part.Name{}
	for at := 0; at < 3000; at++ {
		name := hostileFile(fmt.Sprintf("%05d-%x", at, sha256.Sum256([]byte{byte(at), byte(at >> 8)})), int64(at%99+1), 7)
		name.Disk.Contents[0].Hash[0] = first
		names = append(names, name)
	}
	return &hostile{headOfHostile(device), linesOf(names...)}
}

// A part that is changed once its signature was checked changes nothing: what was checked is what is read.
func TestAPartThatIsSwappedOnceItWasChecked(t *testing.T) {
	parts, signers := signedParts(t)
	for at, device := range []byte{1, 2} {
		largePart(device, 1).write(t, parts[at])
		sign(t, filepath.Join(filepath.Dir(parts[at]), fmt.Sprintf("key%d", device)), parts[at])
	}
	_, had, log := checkedBy(parts, "--lines", "--allowed-signers", signers)
	if about, err := os.Stat(parts[1]); err != nil || about.Size() < 1<<17 || len(had) < 1000 {
		t.Fatalf("%v, %s%s", about, had, log)
	}
	directory := t.TempDir()
	forged := filepath.Join(directory, "forged.part")
	largePart(2, 9).write(t, forged)
	script := "#!/bin/sh\n/usr/bin/ssh-keygen \"$@\"; status=$?\ncp '" + forged + "' '" + parts[1] + "'\nexit $status\n"
	if err := os.WriteFile(filepath.Join(directory, "ssh-keygen"), []byte(script), 0o700); err != nil {
		t.Fatal(err)
	}
	t.Setenv("PATH", directory+":"+os.Getenv("PATH"))
	if _, output, log := checkedBy([]string{parts[1], parts[0]}, "--lines", "--allowed-signers", signers); output != had {
		t.Errorf("what was swapped is read: %s%.1000s, not %.1000s", log, output, had)
	}
	if status, _, log := checkedBy(parts, "--allowed-signers", signers); status != exit.Refused {
		t.Errorf("the forged part: %d, %s", status, log)
	}
}

// What ssh-keygen says comes to no terminal raw.
func TestWhatSSHKeygenSaysIsNotPrintedRaw(t *testing.T) {
	parts, signers := signedParts(t)
	directory := t.TempDir()
	script := "#!/bin/sh\nprintf '\\033[2J\\nFAKE: in step\\n\\302\\2332J' >&2\nexit 255\n"
	if err := os.WriteFile(filepath.Join(directory, "ssh-keygen"), []byte(script), 0o700); err != nil {
		t.Fatal(err)
	}
	t.Setenv("PATH", directory)
	status, output, log := checkedBy(parts, "--allowed-signers", signers)
	if status != exit.Refused || output != "" || !strings.Contains(log, `ssh-keygen ended with exit status 255: \x1b[2J; FAKE: in step; \xc2\x9b2J`) {
		t.Errorf("%d, %s%s", status, output, log)
	}
	checkPrinted(t, "what ssh-keygen says", log)
}

// Where a part is signed stands with the flags.
func TestWrongUseOfSigning(t *testing.T) {
	for words, told := range map[string]string{
		"part --sign k":                      "--sign needs -o FILE",
		"part --sign k -o -":                 "--sign needs -o FILE",
		"part --sign k -o x --about":         "--sign is for parts",
		"check --home x --allowed-signers k": "--allowed-signers is for parts",
		"part -o x --sign ":                  "invalid value \"\" for flag --sign: empty",
		"check x --allowed-signers ":         "invalid value \"\" for flag --allowed-signers: empty",
		"run x: --allowed-signers k":         "run has no flag --allowed-signers\n",
	} {
		isWrongUse(t, words, told)
	}
}
