package rest

import (
	"fmt"
	"net"
	"net/http"
	"os"
	"reflect"
	"strings"
	"testing"

	"syncthing-audit/part"
)

// A Syncthing is asked for what is due and for nothing else, each time with its key.
func TestWhatARemoteIsAsked(t *testing.T) {
	of := usual()
	of.answers["db/file?file=x+y&folder=a%2Fb"] = `{"local":{"sequence":7,"version":["AAAAAAA:3","BBBBBBB:1"]},"global":{"sequence":9}}`
	remote := served(t, of, true)
	if _, err := remote.Ask("a/b"); err != nil {
		t.Fatal(err)
	}
	if sequence, version, err := remote.Local("a/b", "x y"); err != nil || sequence != 7 || !reflect.DeepEqual(version, []string{"AAAAAAA:3", "BBBBBBB:1"}) {
		t.Errorf("%d, %q, %v", sequence, version, err)
	}
	if sequence, version, err := remote.Local("a/b", "none"); err == nil || sequence != 0 || version != nil {
		t.Errorf("%d, %q, %v", sequence, version, err)
	}
	if err := remote.Scan("a/b"); err != nil {
		t.Error(err)
	}
	due := []string{"GET /rest/config/folders/a%2Fb key", "GET /rest/config/devices key", "GET /rest/db/status?folder=a%2Fb key", "GET /rest/folder/errors?folder=a%2Fb&page=1&perpage=10 key",
		"GET /rest/db/file?file=x+y&folder=a%2Fb key", "GET /rest/db/file?file=none&folder=a%2Fb key", "POST /rest/db/scan?folder=a%2Fb key"}
	if !reflect.DeepEqual(of.asked, due) {
		t.Errorf("%q", of.asked)
	}
}

// What a Syncthing still needs is told as it says it, with no more names at which it fails than it counts, nor than are told. It is asked for these where it fails
// at any. Fewer than no names are refused, whichever they are.
func TestWhatARemoteNeeds(t *testing.T) {
	for _, row := range []struct{ names, bytes, errors, listed, first int64 }{
		{0, 0, 0, 5, 0}, {1, 0, 1, 0, 0}, {1, 0, 1, 5, 1}, {9, 7, part.MostErrors, 99, part.MostErrors}, {9, 7, 99, 99, part.MostErrors}, {9, 7, 99, 3, 3},
		{-1, 0, 0, 0, -1}, {0, -1, 0, 0, -1}, {0, 0, -1, 0, -1},
	} {
		of, listed := usual(), []string{}
		for number := int64(0); number < row.listed; number++ {
			listed = append(listed, fmt.Sprintf(`{"path":"%d","error":"why %d"}`, number, number))
		}
		of.answers["db/status?folder=a%2Fb"] = fmt.Sprintf(`{"state":"error","error":"no disk","needTotalItems":%d,"needBytes":%d,"errors":%d}`, row.names, row.bytes, row.errors)
		of.answers["folder/errors?folder=a%2Fb&page=1&perpage=10"] = `{"errors":[` + strings.Join(listed, ",") + `]}`
		said, err := served(t, of, true).rest("a/b")
		if row.first < 0 {
			if err == nil || !reflect.DeepEqual(said, part.Rest{}) {
				t.Errorf("%+v: %+v, %v", row, said, err)
			}
			continue
		}
		due := part.Rest{State: "error", Why: "no disk", Wanted: &part.Wanted{Count: part.Count{Names: row.names, Bytes: row.bytes}, Errors: row.errors}}
		if row.errors > 0 {
			due.Wanted.First = []part.NameError{}
		}
		for number := int64(0); number < row.first; number++ {
			due.Wanted.First = append(due.Wanted.First, part.NameError{Name: part.Bytes(fmt.Sprint(number)), Why: fmt.Sprintf("why %d", number)})
		}
		if err != nil || !reflect.DeepEqual(said, due) || len(of.asked) != 1+int(min(row.errors, 1)) {
			t.Errorf("%+v: %+v, %+v, %v", row, said, said.Wanted, err)
		}
	}
}

func min(a, b int64) int64 {
	if a < b {
		return a
	}
	return b
}

// Whatever status a Syncthing answers with, what it is asked is answered by 200 alone, and the others are told in words.
func TestEachStatusOfARemote(t *testing.T) {
	for _, status := range []int{200, 201, 301, 302, 303, 307, 308, 400, 401, 402, 403, 404, 410, 500, 503} {
		asked := saying(t, status, `{"myID":"X","state":"idle"}`)
		remote := &Remote{Address: asked.GUI.RawAddress, Key: "key"}
		told := ""
		switch status {
		case 200:
		case 401, 403:
			told = "it doesn't take the API key ("
		case 301, 302, 307, 308:
			told = "it leads elsewhere"
		case 404:
			told = "this Syncthing doesn't say it"
		default:
			told = fmt.Sprintf("Syncthing answers %d ", status)
		}
		if err := remote.Check("X"); (err == nil) != (told == "") || err != nil && !strings.HasPrefix(err.Error(), told) {
			t.Errorf("%d: %v", status, err)
		}
		if err := remote.Scan("docs"); (err == nil) != (status == 200) || err != nil && !strings.HasPrefix(err.Error(), fmt.Sprintf("folder docs isn't scanned: Syncthing answers %d ", status)) {
			t.Errorf("%d: %v", status, err)
		}
	}
}

// Of an answer so much is read, and no more.
func TestHowMuchOfAnAnswerIsRead(t *testing.T) {
	const text = `{"state":"idle"}`
	for more := 0; more < 2; more++ {
		long := strings.Repeat(" ", mostOfAnswer-len(text)+more) + text
		if state, err := saying(t, http.StatusOK, long).State("docs"); (err == nil) != (more == 0) || (state == "idle") != (more == 0) {
			t.Errorf("%d bytes: %q, %v", len(long), state, err)
		}
	}
	fault := strings.Repeat("x", 2000)
	asked := saying(t, http.StatusInternalServerError, fault)
	err := (&Remote{Address: asked.GUI.RawAddress, Key: "key"}).Scan("docs")
	if err == nil || !strings.HasSuffix(err.Error(), ": "+fault[:1000]) || strings.HasSuffix(err.Error(), fault[:1001]) {
		t.Errorf("%v", err)
	}
}

// An address that is none, or where nobody listens, is told without the question, which has nothing to do with it.
func TestARemoteThatIsNotThere(t *testing.T) {
	for _, address := range []string{"a b", "127.0.0.1:1", "127.0.0.1:99999"} {
		remote := &Remote{Address: address, Key: "key"}
		err := remote.Scan("docs")
		if err == nil || !strings.HasPrefix(err.Error(), "folder docs isn't scanned: ") || strings.Contains(err.Error(), "db/scan?") && address != "a b" {
			t.Errorf("%s: %v", address, err)
		}
		if err := remote.Check("X"); err == nil {
			t.Errorf("%s answers", address)
		}
		if folders, err := remote.Folders(); err == nil || folders != nil {
			t.Errorf("%s: %v", address, folders)
		}
	}
	if answer, err := (Syncthing{}).ask("a b", "x", atOnce); err == nil || answer != nil {
		t.Error("an odd question is asked")
	}
}

// Where another user listens no key goes without TLS, whoever else listens there.
func TestAListenerOfAnotherUser(t *testing.T) {
	if os.Getuid() != 0 {
		t.Skip("only root makes listeners of others")
	}
	for _, owner := range []int{0, 1, 1234} {
		listening, err := net.Listen("tcp", "127.0.0.1:0")
		if err != nil {
			t.Fatal(err)
		}
		socket, err := listening.(*net.TCPListener).File()
		if err == nil {
			err = socket.Chown(owner, 0)
		}
		if err != nil {
			t.Fatal(err)
		}
		err = checkOwn(listening.Addr())
		if (err == nil) != (owner == 0) || err != nil && !strings.HasPrefix(err.Error(), fmt.Sprintf("a program of user %d listens at ", owner)) {
			t.Errorf("user %d: %v", owner, err)
		}
		socket.Close()
		listening.Close()
	}
	if err := checkOwn(&net.UnixAddr{Name: "a"}); err == nil {
		t.Error("a socket of the file system gets a key")
	}
}
