package rest

import (
	"context"
	"errors"
	"net"
	"net/http"
	"net/http/httptest"
	"os"
	"path/filepath"
	"runtime/debug"
	"strings"
	"testing"
	"time"

	"github.com/syncthing/syncthing/lib/config"
	"syncthing-audit/fixture"
)

// No connection is left open, whatever comes of a question: nobody is seen there, or an answer is read, or refused, or longer than what is read of it.
func TestNoConnectionIsLeft(t *testing.T) {
	defer debug.SetGCPercent(debug.SetGCPercent(-1)) // which closes what nobody has any more
	long := strings.Repeat(" ", mostOfAnswer+1000)
	for what, row := range map[string]struct {
		status int
		text   string
	}{"an answer": {200, `{"state":"idle"}`}, "no such question": {404, "x"}, "no JSON": {200, "x"}, "a fault": {500, "x"}, "a long fault": {500, long}, "a long answer": {200, long}} {
		for _, ask := range []func(s Syncthing){func(s Syncthing) { s.State("docs") }, func(s Syncthing) { s.Scan("docs", "") }} {
			asked := saying(t, row.status, row.text)
			before := fixture.CountOpened(t, isSocket)
			for try := 0; try < 2; try++ {
				ask(asked)
			}
			seeClosed(t, what, before)
		}
	}
	refused := Syncthing{Home: homeOf(t), GUI: config.GUIConfiguration{APIKey: "key"}} // nobody runs there
	server := httptest.NewServer(http.NotFoundHandler())
	defer server.Close()
	refused.GUI.RawAddress = server.Listener.Addr().String()
	before := fixture.CountOpened(t, isSocket)
	for try := 0; try < 5; try++ {
		if err := refused.Scan("docs", ""); err == nil {
			t.Fatal("a stranger is asked")
		}
	}
	seeClosed(t, "a stranger", before)
	remote := &Remote{Address: net.JoinHostPort(addressElsewhere(t), portOfAll(t)), Key: "key"} // an address that isn't the loopback one
	before = fixture.CountOpened(t, isSocket)
	for try := 0; try < 5; try++ {
		if connection, err := remote.dial(context.Background()); connection != nil || !errors.Is(err, ErrStranger) {
			t.Fatal(err)
		}
	}
	seeClosed(t, "a remote stranger", before)
}

// No connection to a remote API is left open, whatever it answers.
func TestNoConnectionToARemoteIsLeft(t *testing.T) {
	defer debug.SetGCPercent(debug.SetGCPercent(-1))
	for _, status := range []int{http.StatusOK, http.StatusForbidden, http.StatusInternalServerError} {
		server := httptest.NewServer(http.HandlerFunc(func(to http.ResponseWriter, _ *http.Request) {
			to.WriteHeader(status)
			to.Write([]byte("{" + strings.Repeat(" ", 5000) + "}"))
		}))
		remote := &Remote{Address: server.Listener.Addr().String(), Key: "key"}
		before := fixture.CountOpened(t, isSocket)
		for try := 0; try < 2; try++ {
			if err := remote.Scan("docs"); (err == nil) != (status == http.StatusOK) {
				t.Errorf("%d: %v", status, err)
			}
			if _, _, err := remote.Local("docs", "a"); (err == nil) != (status == http.StatusOK) {
				t.Errorf("%d: %v", status, err)
			}
		}
		seeClosed(t, "a remote API", before)
		server.Close()
	}
}

// A connection that is closed has nobody at its other end.
func TestNobodyIsAtAClosedConnection(t *testing.T) {
	room, err := os.MkdirTemp("", "gui") // a socket's path has at most 107 bytes
	if err != nil {
		t.Fatal(err)
	}
	defer os.RemoveAll(room)
	listening, err := net.Listen("unix", filepath.Join(room, "s"))
	if err != nil {
		t.Fatal(err)
	}
	defer listening.Close()
	connection, err := net.Dial("unix", filepath.Join(room, "s"))
	if err != nil {
		t.Fatal(err)
	}
	if all, err := listenersOf(connection); err != nil || len(all) != 1 {
		t.Errorf("%v, %v", all, err)
	}
	connection.Close()
	for _, closed := range []net.Conn{connection, &net.UnixConn{}} {
		if all, err := listenersOf(closed); err == nil || len(all) != 0 {
			t.Errorf("%v, %v", all, err)
		}
	}
}

// seeClosed waits until no more sockets are open than before: the server's ends close behind the others.
func seeClosed(t *testing.T, what string, before int) {
	for until := time.Now().Add(5 * time.Second); fixture.CountOpened(t, isSocket) > before; time.Sleep(time.Millisecond) {
		if time.Now().After(until) {
			t.Fatalf("%s: %d sockets are open, and %d were", what, fixture.CountOpened(t, isSocket), before)
		}
	}
}

// isSocket says whether an open file is a socket.
func isSocket(path string) bool { return strings.HasPrefix(path, "socket:") }
