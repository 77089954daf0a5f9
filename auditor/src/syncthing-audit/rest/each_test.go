package rest

import (
	"fmt"
	"net/http"
	"net/http/httptest"
	"strings"
	"testing"

	"github.com/syncthing/syncthing/lib/config"
)

// saying gives a Syncthing that answers each question so, on a home that is in use.
func saying(t *testing.T, status int, text string) Syncthing {
	server := httptest.NewServer(http.HandlerFunc(func(to http.ResponseWriter, _ *http.Request) {
		to.WriteHeader(status)
		fmt.Fprint(to, text)
	}))
	t.Cleanup(server.Close)
	return Syncthing{Home: homeInUse(t), GUI: config.GUIConfiguration{APIKey: "key", RawAddress: server.Listener.Addr().String()}}
}

// What Syncthing says of itself is read, and what it doesn't say, or says otherwise, is an error to each question.
func TestEachQuestion(t *testing.T) {
	const state, paths, started = `{"state":"scanning"}`, `{"baseDir-data":"/srv"}`, `{"startTime":"2026-11-29T01:02:03Z"}`
	questions := map[string]func(s Syncthing) (string, error){
		state:   func(s Syncthing) (string, error) { return s.State("docs") },
		paths:   func(s Syncthing) (string, error) { return s.DataDirectory() },
		started: func(s Syncthing) (string, error) { at, err := s.Started(); return fmt.Sprint(at.Unix()), err },
	}
	expected := map[string]string{state: "scanning", paths: "/srv", started: "1795914123"}
	for text, ask := range questions {
		if told, err := ask(saying(t, http.StatusOK, text)); err != nil || told != expected[text] {
			t.Errorf("%s: %q, %v", text, told, err)
		}
		for _, none := range []struct {
			status int
			text   string
		}{{http.StatusOK, "{}"}, {http.StatusOK, "x"}, {http.StatusOK, text[:len(text)-1]}, {http.StatusNotFound, text}, {http.StatusForbidden, text}, {http.StatusInternalServerError, text}} {
			if told, err := ask(saying(t, none.status, none.text)); err == nil {
				t.Errorf("%d %s is read as %q", none.status, none.text, told)
			}
		}
		stopped := saying(t, http.StatusOK, text)
		stopped.GUI.RawAddress = "127.0.0.1:1"
		if told, err := ask(stopped); err == nil {
			t.Errorf("nobody listens, and says %q", told)
		}
	}
	if told, err := saying(t, http.StatusOK, `{"state":""}`).State("docs"); err != nil || told != "" {
		t.Errorf("a paused folder: %q, %v", told, err)
	}
}

// Why a folder isn't scanned is told with its name and label, and with what Syncthing says, up to so many bytes.
func TestWhatAScanTells(t *testing.T) {
	const called = "folder docs (Documents) isn't scanned"
	long := strings.Repeat("x", 1500)
	for told, s := range map[string]Syncthing{
		called + " (500 Internal Server Error), and Syncthing says: it is missing. See to that on its page, or audit without --rescan": saying(t, 500, " it is missing\n"),
		called + " (500 Internal Server Error), and Syncthing says: " + long[:1000] + ". See to that on its page":                      saying(t, 500, long),
		called + ": Syncthing doesn't take the API key of ":                                                                            saying(t, http.StatusUnauthorized, ""),
	} {
		if err := s.Scan("docs", "Documents"); err == nil || !strings.HasPrefix(err.Error(), told) {
			t.Errorf("%v, not %s", err, told)
		}
	}
	if err := saying(t, http.StatusOK, "").Scan("docs", "Documents"); err != nil {
		t.Error(err)
	}
}

// The address that is asked is that of this machine where Syncthing listens on all.
func TestAddressesOfThisMachine(t *testing.T) {
	for address, local := range map[string]string{"0.0.0.0:8384": "localhost:8384", ":8384": "localhost:8384", "[::]:8384": "localhost:8384", "127.0.0.1:8384": "127.0.0.1:8384",
		"192.0.2.7:1": "192.0.2.7:1", "/run/gui": "/run/gui", "[::1]:8384": "[::1]:8384", "box": "box", "box:1": "box:1"} {
		if is := localAddress(config.GUIConfiguration{RawAddress: address}); is != local {
			t.Errorf("%s: %s, not %s", address, is, local)
		}
	}
}

// Why a question isn't answered is told in words, by the status that Syncthing answers with.
func TestWhyAQuestionIsNotAnswered(t *testing.T) {
	for status, told := range map[int]string{http.StatusNotFound: "this Syncthing doesn't say it, as 1.19 doesn't", http.StatusForbidden: "Syncthing answers 403 Forbidden",
		http.StatusInternalServerError: "Syncthing answers 500 Internal Server Error"} {
		if _, err := saying(t, status, `{"state":"idle"}`).State("docs"); err == nil || err.Error() != told {
			t.Errorf("%d: %v", status, err)
		}
	}
	for text, ask := range map[string]func(s Syncthing) error{
		"Syncthing doesn't say what it does there":              func(s Syncthing) error { _, err := s.State("docs"); return err },
		"Syncthing doesn't say where its database is":           func(s Syncthing) error { _, err := s.DataDirectory(); return err },
		"Syncthing doesn't say when it was started":             func(s Syncthing) error { _, err := s.Started(); return err },
		"folder docs isn't scanned: does Syncthing run there? ": func(s Syncthing) error { s.GUI.RawAddress = "127.0.0.1:1"; return s.Scan("docs", "") },
	} {
		if err := ask(saying(t, http.StatusOK, "{}")); err == nil || !strings.HasPrefix(err.Error(), text) {
			t.Errorf("%v, not %s", err, text)
		}
	}
}
