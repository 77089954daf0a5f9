package rest

import (
	"encoding/pem"
	"io"
	"net/http"
	"net/http/httptest"
	"os"
	"path/filepath"
	"strings"
	"testing"
	"time"

	"github.com/syncthing/syncthing/lib/config"
)

// answering gives a server that scans the folder 'a b' alone, and says where its files are, for whoever has the key.
func answering(t *testing.T, isSecure bool) (*httptest.Server, config.GUIConfiguration) {
	server := httptest.NewUnstartedServer(http.HandlerFunc(func(to http.ResponseWriter, asked *http.Request) {
		switch {
		case asked.Method == http.MethodGet && asked.URL.Path == "/rest/system/paths" && asked.Header.Get("X-API-Key") == "key":
			io.WriteString(to, `{"baseDir-config":"/srv/config","baseDir-data":"/srv/data"}`)
		case asked.Method == http.MethodGet && asked.URL.Path == "/rest/system/status" && asked.Header.Get("X-API-Key") == "key":
			io.WriteString(to, `{"startTime":"2026-11-28T10:00:00+01:00","uptime":7}`)
		case asked.Method != http.MethodPost || asked.URL.Path != "/rest/db/scan":
			http.Error(to, "odd", http.StatusNotFound)
		case asked.Header.Get("X-API-Key") != "key":
			http.Error(to, "Forbidden", http.StatusForbidden)
		case asked.URL.Query().Get("folder") != "a b":
			http.Error(to, "no such folder", http.StatusInternalServerError)
		}
	}))
	if isSecure {
		server.StartTLS()
	} else {
		server.Start()
	}
	t.Cleanup(server.Close)
	return server, config.GUIConfiguration{RawAddress: server.Listener.Addr().String(), RawUseTLS: isSecure, APIKey: "key"}
}

// A scan is asked of the home's own Syncthing alone, by its key and its certificate.
func TestScan(t *testing.T) {
	cases := []struct {
		why      string
		isSecure bool
		folder   string
		change   func(home string, about *config.GUIConfiguration)
		told     string
	}{
		{"as it is", false, "a b", func(string, *config.GUIConfiguration) {}, ""},
		{"with the home's certificate", true, "a b", func(string, *config.GUIConfiguration) {}, ""},
		{"on all addresses", false, "a b", func(_ string, about *config.GUIConfiguration) {
			about.RawAddress = strings.Replace(about.RawAddress, "127.0.0.1", "0.0.0.0", 1)
		}, ""},
		{"another folder", false, "pics", func(string, *config.GUIConfiguration) {}, "no such folder"},
		{"another key", false, "a b", func(_ string, about *config.GUIConfiguration) { about.APIKey = "x" }, "doesn't take the API key"},
		{"nobody there", false, "a b", func(_ string, about *config.GUIConfiguration) { about.RawAddress = "127.0.0.1:1" }, "does Syncthing run there?"},
		{"another certificate", true, "a b", func(home string, _ *config.GUIConfiguration) {
			os.WriteFile(filepath.Join(home, "https-cert.pem"), pem.EncodeToMemory(&pem.Block{Type: "CERTIFICATE", Bytes: []byte("x")}), 0o600)
		}, "isn't this home's Syncthing"},
		{"no certificate", true, "a b", func(home string, _ *config.GUIConfiguration) { os.Remove(filepath.Join(home, "https-cert.pem")) }, "https-cert.pem"},
	}
	for _, row := range cases {
		home := homeInUse(t)
		server, about := answering(t, row.isSecure)
		if row.isSecure {
			text := pem.EncodeToMemory(&pem.Block{Type: "CERTIFICATE", Bytes: server.Certificate().Raw})
			if err := os.WriteFile(filepath.Join(home, "https-cert.pem"), text, 0o600); err != nil {
				t.Fatal(err)
			}
		}
		row.change(home, &about)
		err := Syncthing{Home: home, GUI: about}.Scan(row.folder, "")
		if (err == nil) != (row.told == "") || err != nil && !strings.Contains(err.Error(), row.told) {
			t.Errorf("%s: %v", row.why, err)
		}
	}
}

// Where a Syncthing has its database is asked of itself. One that doesn't say it isn't taken for one that does.
func TestDataDirectory(t *testing.T) {
	_, about := answering(t, false)
	home := homeInUse(t)
	asked := func() (string, error) { return Syncthing{Home: home, GUI: about}.DataDirectory() }
	if path, err := asked(); err != nil || path != "/srv/data" {
		t.Errorf("%q, %v", path, err)
	}
	about.APIKey = "x"
	if path, err := asked(); err == nil || path != "" {
		t.Errorf("with another key: %q, %v", path, err)
	}
	for _, said := range []string{"", "{}", `{"baseDir-data":"data"}`, "[]"} {
		server := httptest.NewServer(http.HandlerFunc(func(to http.ResponseWriter, _ *http.Request) { io.WriteString(to, said) }))
		about.RawAddress = server.Listener.Addr().String()
		if path, err := asked(); err == nil || path != "" {
			t.Errorf("%q is taken: %q", said, path)
		}
		server.Close()
	}
}

// When a Syncthing was started is asked of itself. One that doesn't say it isn't taken for one that does.
func TestStarted(t *testing.T) {
	_, about := answering(t, false)
	home := homeInUse(t)
	asked := func() (time.Time, error) { return Syncthing{Home: home, GUI: about}.Started() }
	if at, err := asked(); err != nil || at.UTC().Format(time.RFC3339) != "2026-11-28T09:00:00Z" {
		t.Errorf("%v, %v", at, err)
	}
	about.APIKey = "x"
	if at, err := asked(); err == nil {
		t.Errorf("with another key: %v", at)
	}
	for _, said := range []string{"", "{}", `{"startTime":"soon"}`, "[]"} {
		server := httptest.NewServer(http.HandlerFunc(func(to http.ResponseWriter, _ *http.Request) { io.WriteString(to, said) }))
		about.RawAddress = server.Listener.Addr().String()
		if at, err := asked(); err == nil {
			t.Errorf("%q is taken: %v", said, at)
		}
		server.Close()
	}
}
