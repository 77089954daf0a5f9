package rest

import (
	"bufio"
	"errors"
	"fmt"
	"io"
	"net"
	"net/http"
	"net/http/httptest"
	"os"
	"os/exec"
	"strings"
	"testing"

	"github.com/syncthing/syncthing/lib/config"
)

// asListener has this program listen, and hold no index, until its input ends: it says where, and each key that it is sent.
const asListener = "SYNCTHING_AUDIT_LISTENS"

func TestMain(m *testing.M) {
	if os.Getenv(asListener) == "" {
		os.Exit(m.Run())
	}
	server := httptest.NewServer(http.HandlerFunc(func(to http.ResponseWriter, asked *http.Request) {
		fmt.Fprintf(to, `{"state":%q}`, asked.Header.Get("X-API-Key"))
	}))
	fmt.Println(server.Listener.Addr())
	io.Copy(io.Discard, os.Stdin)
}

// listenerElsewhere starts a process that listens and has no index open, and gives its address. It answers with the key that it is sent.
func listenerElsewhere(t *testing.T) string {
	listening := exec.Command(os.Args[0])
	listening.Env = append(os.Environ(), asListener+"=1")
	input, err := listening.StdinPipe()
	if err != nil {
		t.Fatal(err)
	}
	output, err := listening.StdoutPipe()
	if err == nil {
		err = listening.Start()
	}
	if err != nil {
		t.Fatal(err)
	}
	t.Cleanup(func() { input.Close(); listening.Wait() })
	address, err := bufio.NewReader(output).ReadString('\n')
	if err != nil {
		t.Fatal(err)
	}
	return strings.TrimSpace(address)
}

// A listener that has no index open is sent the key where the index is in use that the home has, or that is said to be its own, and where no other is.
func TestWhoseIndexIsInUse(t *testing.T) {
	address := listenerElsewhere(t)
	for _, row := range []struct {
		held     string // where an index is in use, by this process
		said     string // where the home's index is said to be
		isAsked  bool
		whatElse func(s *Syncthing)
	}{
		{"home", "", true, nil}, {"data", "data", true, nil}, {"", "", false, nil}, {"", "data", false, nil},
		{"data", "", false, nil}, {"home", "data", false, nil}, {"elsewhere", "", false, nil}, {"elsewhere", "data", false, nil},
		{"home", "", false, func(s *Syncthing) { os.Remove(s.Home + "/config.xml") }},
	} {
		at := map[string]string{"home": homeOf(t), "data": t.TempDir(), "elsewhere": t.TempDir()}
		if row.held != "" {
			lockIn(t, at[row.held])
		}
		asked := Syncthing{Home: at["home"], Data: at[row.said], GUI: config.GUIConfiguration{APIKey: "key", RawAddress: address}}
		if row.whatElse != nil {
			row.whatElse(&asked)
		}
		if state, err := asked.State("docs"); (err == nil) != row.isAsked || (state == "key") != row.isAsked {
			t.Errorf("%s is held, and %q is said to be the home's: %q, %v", row.held, row.said, state, err)
		}
	}
}

// Where nobody is seen to listen at the far end, no key is sent, though the home's index is in use.
func TestNobodyIsSeenToListen(t *testing.T) {
	listening, err := net.Listen("tcp", "127.0.0.1:0")
	if err != nil {
		t.Fatal(err)
	}
	connection, err := net.Dial("tcp", listening.Addr().String())
	if err != nil {
		t.Fatal(err)
	}
	defer connection.Close()
	listening.Close() // its connections stay
	piped, far := net.Pipe()
	defer far.Close()
	for told, connection := range map[string]net.Conn{"this system has none listed": connection, "a connection of another kind": piped} {
		begin := fmt.Sprintf("the API key isn't sent to %s: it isn't seen whose program listens there: %s", connection.RemoteAddr(), told)
		if err := (Syncthing{Home: homeInUse(t)}).checkFar(connection); !errors.Is(err, ErrStranger) || !strings.HasPrefix(err.Error(), begin) {
			t.Errorf("%s: %v", begin, err)
		}
	}
}
