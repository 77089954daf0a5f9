package rest

import (
	"net"
	"net/http"
	"net/http/httptest"
	"strings"
	"testing"

	"github.com/syncthing/syncthing/lib/config"
)

// The key goes to an address of this machine alone.
func TestTheKeyStaysHere(t *testing.T) {
	address := func(text string) net.Addr { return &net.TCPAddr{IP: net.ParseIP(text)} }
	for _, row := range []struct {
		near, far string
		isHere    bool
	}{
		{"127.0.0.1", "127.0.0.1", true}, {"127.0.0.1", "127.0.0.5", true}, {"::1", "::1", true}, {"192.0.2.7", "192.0.2.7", true},
		{"192.0.2.7", "192.0.2.8", false}, {"2001:db8::1", "2001:db8::2", false},
	} {
		if err := checkHere(address(row.near), address(row.far)); (err == nil) != row.isHere {
			t.Errorf("%+v: %v", row, err)
		}
	}
	if err := checkHere(&net.UnixAddr{Name: "a"}, &net.UnixAddr{Name: "b"}); err != nil {
		t.Error(err)
	}
	if err := checkHere(&net.UnixAddr{Name: "a"}, address("127.0.0.1")); err == nil || !strings.Contains(err.Error(), "leads to 127.0.0.1, which isn't this machine") {
		t.Errorf("a connection of two kinds: %v", err)
	}
}

// A redirection isn't followed, so the key doesn't go with it.
func TestNoRedirectionIsFollowed(t *testing.T) {
	for _, status := range []int{http.StatusMovedPermanently, http.StatusFound, http.StatusTemporaryRedirect, http.StatusPermanentRedirect} {
		asked := []string{}
		server := httptest.NewServer(http.HandlerFunc(func(to http.ResponseWriter, from *http.Request) {
			asked = append(asked, from.URL.Path)
			http.Redirect(to, from, "/elsewhere", status)
		}))
		defer server.Close()
		of := Syncthing{Home: homeInUse(t), GUI: config.GUIConfiguration{APIKey: "key", RawAddress: server.Listener.Addr().String()}}
		answer, err := of.ask(http.MethodGet, "system/ping", atOnce)
		if err != nil || answer.StatusCode != status || len(asked) != 1 {
			t.Errorf("%d: %v, %v, asked for %q", status, answer, err, asked)
		}
		if err == nil {
			answer.Body.Close()
		}
	}
}
