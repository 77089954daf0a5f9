package diskhalf

import (
	"encoding/pem"
	"fmt"
	"io"
	"net"
	"net/http"
	"net/http/httptest"
	"os"
	"path/filepath"
	"runtime/debug"
	"strings"
	"syscall"
	"testing"
	"time"

	"syncthing-audit/fixture"
	"syncthing-audit/part"
)

// A Syncthing that scans is waited for, up to some time. What it answers otherwise is told as what isn't known, and so is that nobody answers.
func TestWhetherSyncthingIsIdle(t *testing.T) {
	had, each := timeToBeIdle, askedEach
	defer func() { timeToBeIdle, askedEach = had, each }()
	askedEach = 10 * time.Millisecond
	for _, row := range []struct {
		status int
		texts  []string // the last one each time again
		due    part.Rest
		least  int // how often it is asked at least
	}{
		{200, []string{`{"state":"idle"}`}, part.Rest{State: part.RestIdle}, 1},
		{200, []string{`{"state":"scanning"}`, `{"state":"syncing"}`, `{"state":"idle"}`}, part.Rest{State: part.RestIdle}, 3},
		{200, []string{`{"state":"scanning"}`}, part.Rest{State: "scanning"}, 3},
		{200, []string{`{}`}, part.Rest{State: part.RestUnasked, Why: "Syncthing doesn't say what it does there"}, 1},
		{200, []string{`x`}, part.Rest{State: part.RestUnasked, Why: "invalid character 'x' looking for beginning of value"}, 1},
		{200, []string{strings.Repeat(" ", 1<<20) + `{"state":"idle"}`}, part.Rest{State: part.RestUnasked, Why: "EOF"}, 1},
		{307, []string{`{"state":"idle"}`}, part.Rest{State: part.RestUnasked, Why: "Syncthing answers 307 Temporary Redirect"}, 1},
		{403, []string{`{"state":"idle"}`}, part.Rest{State: part.RestUnasked, Why: "Syncthing answers 403 Forbidden"}, 1},
	} {
		asked := 0
		server := httptest.NewServer(http.HandlerFunc(func(to http.ResponseWriter, _ *http.Request) {
			to.Header().Set("Location", "/elsewhere")
			to.WriteHeader(row.status)
			place := asked
			if asked++; place >= len(row.texts) {
				place = len(row.texts) - 1
			}
			io.WriteString(to, row.texts[place])
		}))
		read, err := readConfiguration(configWith(t, "/docs", "sendreceive", server.Listener.Addr().String(), false))
		if err != nil {
			t.Fatal(err)
		}
		if timeToBeIdle = had; row.due.State == "scanning" { // it never is
			timeToBeIdle = 3 * time.Second
		}
		began := time.Now()
		if rest := read.rest("docs"); *rest != row.due || asked < row.least || row.least == 1 && asked > 1 || asked > 1+int(time.Since(began)/askedEach) {
			t.Errorf("%d, %.40q: %+v, asked %d times", row.status, row.texts, rest, asked)
		}
		server.Close()
	}
}

// deaf gives an address of this machine at which nobody listens, and at which nobody can as long as the test goes on.
func deaf(t *testing.T) string {
	socket, err := syscall.Socket(syscall.AF_INET, syscall.SOCK_STREAM, 0)
	if err != nil {
		t.Fatal(err)
	}
	t.Cleanup(func() { syscall.Close(socket) })
	if err := syscall.Bind(socket, &syscall.SockaddrInet4{Addr: [4]byte{127, 0, 0, 1}}); err != nil {
		t.Fatal(err)
	}
	at, err := syscall.Getsockname(socket)
	if err != nil {
		t.Fatal(err)
	}
	return fmt.Sprintf("127.0.0.1:%d", at.(*syscall.SockaddrInet4).Port)
}

// isSocket says whether an open file is a socket.
func isSocket(path string) bool { return strings.HasPrefix(path, "socket:") }

// Whatever is asked and answered, no connection stays open; and where nobody listens, or it isn't seen who does, that is told.
func TestNoConnectionStaysOpen(t *testing.T) {
	defer debug.SetGCPercent(debug.SetGCPercent(-1)) // the collector closes sockets of which nobody knows any more
	more := strings.Repeat(" ", 1<<20)
	answering := func(to http.ResponseWriter, asked *http.Request) {
		io.WriteString(to, `{"state":"idle"}`)
		if asked.URL.Query().Get("folder") == "more" {
			io.WriteString(to, more)
		}
	}
	plain, secret := httptest.NewServer(http.HandlerFunc(answering)), httptest.NewTLSServer(http.HandlerFunc(answering))
	defer plain.Close()
	defer secret.Close()
	gone, alone := configWith(t, "/docs", "sendreceive", plain.Listener.Addr().String(), false), deaf(t)
	before := fixture.CountOpened(t, isSocket)
	for _, row := range []struct{ path, address, told string }{
		{"", plain.Listener.Addr().String(), ""}, {"", alone, "connection refused"}, {gone + ".none", plain.Listener.Addr().String(), "it isn't seen whose page it is"},
		{"https", secret.Listener.Addr().String(), ""}, {"https", alone, "connection refused"},
	} {
		read := &configuration{path: row.path}
		read.GUI.Address, read.GUI.TLS = row.address, row.path == "https"
		if row.path == "" || row.path == "https" {
			read.path = configWith(t, "/docs", "sendreceive", "", false)
		}
		certificate := pem.EncodeToMemory(&pem.Block{Type: "CERTIFICATE", Bytes: secret.Certificate().Raw})
		if err := os.WriteFile(filepath.Join(filepath.Dir(read.path), "https-cert.pem"), certificate, 0o600); err != nil {
			t.Fatal(err)
		}
		for _, folder := range []string{"docs", "more"} {
			if _, err := read.state(folder); (err == nil) != (row.told == "") || err != nil && !strings.Contains(err.Error(), row.told) {
				t.Errorf("%v: %v", row, err)
			}
		}
		for until := time.Now().Add(10 * time.Second); fixture.CountOpened(t, isSocket) > before; time.Sleep(time.Millisecond) {
			if time.Now().After(until) {
				t.Fatalf("%v: %d sockets are open, and %d were", row, fixture.CountOpened(t, isSocket), before)
			}
		}
	}
}

// The page is asked for at an address of this machine alone, and by the certificate that stands beside the configuration.
func TestWhereThePageIs(t *testing.T) {
	answering := func(to http.ResponseWriter, _ *http.Request) { io.WriteString(to, `{"state":"idle"}`) }
	plain, secret := httptest.NewServer(http.HandlerFunc(answering)), httptest.NewTLSServer(http.HandlerFunc(answering))
	defer plain.Close()
	defer secret.Close()
	_, port, _ := net.SplitHostPort(plain.Listener.Addr().String())
	const elsewhere = "its page has no address of this machine"
	for host, told := range map[string]string{"127.0.0.1": "", "localhost": "", "": "", "0.0.0.0": "", "[::]": "", "192.0.2.1": elsewhere, "box": elsewhere, "[2001:db8::1]": elsewhere} {
		read := &configuration{path: configWith(t, "/docs", "sendreceive", "", false)}
		read.GUI.Address = host + ":" + port
		if state, err := read.state("docs"); (err == nil) != (told == "") || err != nil && err.Error() != told || err == nil && state != part.RestIdle {
			t.Errorf("%s: %s, %v", host, state, err)
		}
	}
	right := pem.EncodeToMemory(&pem.Block{Type: "CERTIFICATE", Bytes: secret.Certificate().Raw})
	other := pem.EncodeToMemory(&pem.Block{Type: "CERTIFICATE", Bytes: []byte("other")})
	for text, told := range map[string]string{string(right): "", string(other): "another certificate than that of its page", "none": "its page's certificate is none",
		strings.Repeat("\n", 1<<20-len(right)) + string(right): "", strings.Repeat("\n", 1<<20-len(right)+1) + string(right): "its page's certificate can't be read"} {
		read := &configuration{path: configWith(t, "/docs", "sendreceive", "", true)}
		read.GUI.TLS, read.GUI.Address = true, secret.Listener.Addr().String()
		if err := os.WriteFile(filepath.Join(filepath.Dir(read.path), "https-cert.pem"), []byte(text), 0o600); err != nil {
			t.Fatal(err)
		}
		if state, err := read.state("docs"); (err == nil) != (told == "") || err != nil && !strings.HasSuffix(err.Error(), told) || err == nil && state != part.RestIdle {
			t.Errorf("%s: %s, %v", told, state, err)
		}
	}
	if err := (pinned("x")).isThat(nil, nil); err == nil {
		t.Error("who shows no certificate has that")
	}
}

// The key goes to nobody who isn't seen.
func TestWhoIsNotSeen(t *testing.T) {
	listening, err := net.Listen("tcp", "127.0.0.1:0")
	if err != nil {
		t.Fatal(err)
	}
	conn, err := net.Dial("tcp", listening.Addr().String())
	if err != nil {
		t.Fatal(err)
	}
	defer conn.Close()
	config := configWith(t, "/docs", "sendreceive", "", false)
	if err := checkListener(conn, config); err != nil {
		t.Error(err)
	}
	if err := checkListener(conn, config+".none"); err == nil || !strings.HasPrefix(err.Error(), "it isn't seen whose page it is: ") {
		t.Error(err)
	}
	piped, far := net.Pipe()
	defer far.Close()
	if err := checkListener(piped, config); err == nil || !strings.HasPrefix(err.Error(), "it isn't seen whose page it is: ") {
		t.Error(err)
	}
	listening.Close()
	if err := checkListener(conn, config); err == nil || !strings.HasPrefix(err.Error(), "it isn't seen whose program listens for its page: ") {
		t.Error(err)
	}
}

// Of several folders each has what is configured of it; one that a config.xml doesn't have is refused. A tilde is the user's directory.
func TestFoldersOfAConfiguration(t *testing.T) {
	home := t.TempDir()
	t.Setenv("HOME", home)
	for path, due := range map[string]string{"~": home, "~/docs": home + "/docs", "/~": "/~", "~docs": "~docs", "": "", "a": "a", "~/": home, "~d/x": "~d/x"} {
		if whole := withHome(path); whole != due {
			t.Errorf("%s: %s, not %s", path, whole, due)
		}
	}
	t.Setenv("HOME", "")
	if whole := withHome("~/docs"); whole != "~/docs" {
		t.Errorf("without a home: %s", whole)
	}
	room := roomWith(t, "a")
	path := configWith(t, room, "receiveonly", "", false)
	text, err := os.ReadFile(path)
	if err == nil {
		err = os.WriteFile(path, []byte(strings.Replace(string(text), "<folder", `<folder id="other" path="/nowhere"></folder><folder`, 1)), 0o600)
	}
	if err != nil {
		t.Fatal(err)
	}
	if head, err := headBy(t, path, room, false); err != nil || head.Folders[0].Kind != "receive-only" {
		t.Errorf("%v, %v", head, err)
	}
	read, err := readConfiguration(path)
	if err != nil {
		t.Fatal(err)
	}
	if err := read.tell(&part.Folder{ID: "none"}, part.UsualMarker); err == nil || !strings.HasSuffix(err.Error(), "has no folder of this id") {
		t.Error(err)
	}
}

// Where a part would be written is looked at without symlinks. What can't be looked at isn't taken for a place outside all folders.
func TestWhereAPartIsWritten(t *testing.T) {
	room, outside := roomWith(t, "below/a"), t.TempDir()
	for name, to := range map[string]string{"into": filepath.Join(room, "below"), "loop": "loop"} {
		if err := os.Symlink(to, filepath.Join(outside, name)); err != nil {
			t.Fatal(err)
		}
	}
	if err := os.WriteFile(filepath.Join(outside, "file"), nil, 0o600); err != nil {
		t.Fatal(err)
	}
	marker := filepath.Join(room, ".stfolder")
	for output, told := range map[string]string{"into/part": "into/part would be in a folder of Syncthing (" + marker + " is there), whose", "part": "", "none/part": "", "file/part": "not a directory", "loop/part": "too many levels"} {
		command := &Command{Asked: Asked{Marker: ".stfolder"}, Output: filepath.Join(outside, output)}
		if err := command.CheckOutput(); (err == nil) != (told == "") || err != nil && !strings.Contains(err.Error(), told) {
			t.Errorf("%s: %v", output, err)
		}
	}
	here, err := os.Getwd()
	if err != nil {
		t.Fatal(err)
	}
	defer os.Chdir(here)
	gone := t.TempDir()
	os.Chdir(gone)
	os.Remove(gone)
	if err := (&Command{Asked: Asked{Marker: ".stfolder"}, Output: "part"}).CheckOutput(); err == nil {
		t.Error("it isn't known where a part would be")
	}
}

// What a person is told of a part has what was counted, and of nothing it says nothing.
func TestWhatIsToldOfAPart(t *testing.T) {
	for line, told := range map[string]Told{"2 names, 5 bytes hashed": {Names: 2, Bytes: 5}, "1 names, 0 bytes hashed; 1 names changed meanwhile": {Names: 1, Moved: 1},
		"0 names, 0 bytes hashed; 3 names changed meanwhile; the disk fails to give what it has of 1 names: see the system's log": {Moved: 3, Damaged: 1}} {
		if told.Line() != line {
			t.Errorf("%q, not %q", told.Line(), line)
		}
	}
}
