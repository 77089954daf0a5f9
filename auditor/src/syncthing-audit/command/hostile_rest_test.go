package command

import (
	"fmt"
	"io"
	"net"
	"os"
	"path/filepath"
	"strings"
	"syscall"
	"testing"

	"syncthing-audit/commandline"
	"syncthing-audit/exit"
	"syncthing-audit/fixture"
	"syncthing-audit/ownpart"
	"syncthing-audit/part"
)

// answeringWith gives the address of what answers each question with a status line and a text, whatever is asked.
func answeringWith(t *testing.T, status, text string) string {
	listening, err := net.Listen("tcp", "127.0.0.1:0")
	if err != nil {
		t.Fatal(err)
	}
	t.Cleanup(func() { listening.Close() })
	go func() {
		for {
			connection, err := listening.Accept()
			if err != nil {
				return
			}
			connection.Read(make([]byte, 1<<16))
			io.WriteString(connection, "HTTP/1.1 "+status+"\r\nConnection: close\r\n\r\n"+text)
			connection.Close()
		}
	}()
	return listening.Addr().String()
}

// askingHome gives a home whose index, in it or elsewhere, seems to be in use, and whose Syncthing answers at an address.
func askingHome(t *testing.T, address string, isElsewhere bool) string {
	folder := t.TempDir()
	home := homeWith(t, folder)
	if err := os.Mkdir(filepath.Join(folder, ".stfolder"), 0o700); err != nil {
		t.Fatal(err)
	}
	config := fmt.Sprintf(`<configuration version="36"><folder id="docs" path=%q></folder><gui enabled="true"><address>%s</address><apikey>key</apikey></gui></configuration>`,
		folder, address)
	if err := os.WriteFile(filepath.Join(home, "config.xml"), []byte(config), 0o600); err != nil {
		t.Fatal(err)
	}
	index := filepath.Join(home, "index-v0.14.0.db")
	if isElsewhere {
		index = filepath.Join(t.TempDir(), "index-v0.14.0.db")
		if err := os.Rename(filepath.Join(home, "index-v0.14.0.db"), index); err != nil {
			t.Fatal(err)
		}
	}
	lock, err := os.Create(filepath.Join(index, "LOCK"))
	if err != nil {
		t.Fatal(err)
	}
	t.Cleanup(func() { lock.Close() })
	if err := syscall.Flock(int(lock.Fd()), syscall.LOCK_EX|syscall.LOCK_NB); err != nil {
		t.Fatal(err)
	}
	return home
}

// questionsToSyncthing are commands that ask it something, and what is in its answer before a payload and behind it.
var questionsToSyncthing = []struct {
	why            string
	words          []string
	isElsewhere    bool
	status, before string
	behind         string
}{
	{"a scan that fails", []string{"--begin", "--rescan"}, false, "500 odd", "", ""},
	{"a scan's status", []string{"--begin", "--rescan"}, false, "500 PAYLOAD", "", ""},
	{"a key that isn't taken", []string{"--begin", "--rescan"}, false, "403 PAYLOAD", "", ""},
	{"a status, asked where the database is", []string{"--about"}, true, "500 PAYLOAD", "", ""},
	{"where the database is", []string{"--about"}, true, "200 OK", `{"baseDir-data":"/`, `"}`},
	{"what is no JSON", []string{"--about"}, true, "200 OK", "", ""},
}

// What a Syncthing answers, or whatever listens at its address, is printed raw by no refusal: neither its status line nor its text.
func TestNoAnswerOfSyncthingIsPrintedRaw(t *testing.T) {
	for _, question := range questionsToSyncthing {
		seen := 0
		for _, payload := range payloads {
			text := payload
			if question.before != "" {
				text = strings.Trim(asJSON(t, payload), `"`)
			}
			address := answeringWith(t, strings.ReplaceAll(question.status, "PAYLOAD", payload), question.before+text+question.behind)
			var output, log strings.Builder
			words := append([]string{"part", "--home", askingHome(t, address, question.isElsewhere), "-o", filepath.Join(t.TempDir(), "part")}, question.words...)
			status := Run(words, &output, &log)
			why := fmt.Sprintf("%s: %q", question.why, payload)
			if status != exit.Refused || log.Len() == 0 {
				t.Errorf("%s: status %d, %s", why, status, log.String())
			}
			seen += strings.Count(log.String(), "FAKE")
			checkPrinted(t, why, output.String()+log.String())
		}
		if seen == 0 && question.why != "what is no JSON" {
			t.Errorf("%s: nothing of it is told", question.why)
		}
	}
}

// What a Syncthing says that it does stands in the part of a second look, and so does why it can't be asked: both come raw into no form of the answer.
func TestNoStateOfSyncthingIsPrintedRaw(t *testing.T) {
	fixture.UseAuditor(t)
	for _, status := range []string{"200 OK", "500 PAYLOAD"} {
		for _, payload := range payloads {
			address := answeringWith(t, strings.ReplaceAll(status, "PAYLOAD", payload), `{"state":`+asJSON(t, payload)+`}`)
			rests, err := ownpart.WaitForRest(commandline.Options{Homes: []string{askingHome(t, address, false)}, Data: map[int]string{}})
			if err != nil || !strings.Contains(rests["docs"].State+rests["docs"].Why, "FAKE") && !strings.Contains(payload, "\n") {
				t.Fatalf("%q: %+v, %v", payload, rests["docs"], err)
			}
			told, isAnswer := toldOf(partsAtRest(t, rests["docs"]))
			if !isAnswer {
				t.Errorf("%q: no answer: %q", payload, told)
			}
			for _, form := range told {
				checkPrinted(t, fmt.Sprintf("%s: %q", status, payload), form)
			}
		}
	}
}

// partsAtRest gives both looks at two devices, of which the first was seen so before its second look.
func partsAtRest(t *testing.T, rest *part.Rest) []string {
	parts := runningParts(1)
	parts[1].Head.Folders[0].Rest = rest
	room := t.TempDir()
	return append(writtenParts(t, filepath.Join(room, "1"), parts), writtenParts(t, filepath.Join(room, "2"), runningParts(2))...)
}
