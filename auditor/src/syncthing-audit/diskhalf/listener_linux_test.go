package diskhalf

import (
	"net"
	"net/http"
	"net/http/httptest"
	"os"
	"runtime"
	"strings"
	"syscall"
	"testing"

	"syncthing-audit/part"
)

// listenAs listens as another user does.
func listenAs(t *testing.T, user int) net.Listener {
	opened, failed := make(chan net.Listener, 1), make(chan error, 1)
	go func() {
		runtime.LockOSThread() // and not unlocked: the thread ends with this
		syscall.RawSyscall(syscall.SYS_SETFSUID, uintptr(user), 0, 0)
		listener, err := net.Listen("tcp", "127.0.0.1:0")
		opened <- listener
		failed <- err
	}()
	listener, err := <-opened, <-failed
	if err != nil {
		t.Fatal(err)
	}
	return listener
}

// Without TLS the API key goes to no program of another user, who may listen where Syncthing doesn't run.
func TestNoOtherUserGetsTheKey(t *testing.T) {
	if os.Geteuid() != 0 {
		t.Skip("root alone listens as another user")
	}
	for _, row := range []struct {
		listener, owner int
		told            string
	}{{12345, 0, "a program of user 12345 listens for its page, and the configuration is of user 0"}, {12345, 12346, "a program of user 12345"}, {12345, 12345, ""},
		{0, 12345, ""}} {
		room, keys := roomWith(t, "a"), 0
		server := httptest.NewUnstartedServer(http.HandlerFunc(func(w http.ResponseWriter, asked *http.Request) {
			keys += len(asked.Header["X-Api-Key"])
			w.Write([]byte(`{"state":"idle"}`))
		}))
		server.Listener.Close()
		server.Listener = listenAs(t, row.listener)
		server.Start()
		config := configWith(t, room, "receiveonly", server.Listener.Addr().String(), false)
		if err := os.Chown(config, row.owner, -1); err != nil {
			t.Fatal(err)
		}
		head, err := headBy(t, config, room, false)
		server.Close()
		if err != nil {
			t.Fatal(err)
		}
		rest := head.Folders[0].Rest
		if (keys > 0) != (row.told == "") || (rest.State == part.RestIdle) != (row.told == "") || !strings.Contains(rest.Why, row.told) {
			t.Errorf("%v: %d keys, %+v", row, keys, rest)
		}
	}
}
