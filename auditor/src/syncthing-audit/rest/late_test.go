package rest

import (
	"net"
	"strings"
	"testing"
	"time"

	"github.com/syncthing/syncthing/lib/config"
)

// silent listens, says some words to whoever connects, and nothing more until the test is over. It gives what it listens at.
func silent(t *testing.T, words string) config.GUIConfiguration {
	listening, err := net.Listen("tcp", "127.0.0.1:0")
	if err != nil {
		t.Fatal(err)
	}
	t.Cleanup(func() { listening.Close() })
	go func() {
		for {
			connection, err := listening.Accept()
			if err != nil {
				return
			}
			t.Cleanup(func() { connection.Close() })
			connection.Read(make([]byte, 1000)) // what it is asked
			connection.Write([]byte(words))
		}
	}()
	return config.GUIConfiguration{RawAddress: listening.Addr().String(), APIKey: "key"}
}

// Where Syncthing never ends its answer, a scan and each question end in time, and each says so. All are asked at once: each has time enough on a busy
// machine.
func TestAnAnswerThatNeverComes(t *testing.T) {
	of, scan := atOnce, longestScan
	t.Cleanup(func() { atOnce, longestScan = of, scan })
	atOnce, longestScan = 2*time.Second, 2*time.Second
	const begun = "HTTP/1.1 500 Odd\r\nContent-Length: 100\r\n\r\nfolder is "
	type ended struct {
		what, words string
		err         error
	}
	all := make(chan ended)
	count := 0
	for _, words := range []string{"", "HTTP/1.1 2", begun, strings.Replace(begun, "500", "200", 1)} {
		asked := Syncthing{Home: homeInUse(t), GUI: silent(t, words)}
		for what, ask := range map[string]func() error{
			"scan":    func() error { return asked.Scan("docs", "") },
			"state":   func() error { _, err := asked.State("docs"); return err },
			"data":    func() error { _, err := asked.DataDirectory(); return err },
			"started": func() error { _, err := asked.Started(); return err },
		} {
			what, words, ask := what, words, ask
			count++
			go func() { all <- ended{what, words, ask()} }()
		}
	}
	for ; count > 0; count-- {
		select {
		case end := <-all:
			isScanned := end.what == "scan" && strings.Contains(end.words, " 200 ") // its status says all
			if (end.err == nil) != isScanned {
				t.Errorf("%s, %q: %v", end.what, end.words, end.err)
			}
			if end.what == "scan" && len(end.words) < len(begun) && !strings.Contains(end.err.Error(), "folder docs isn't scanned: Syncthing wasn't done in 2s") {
				t.Errorf("%q: %v", end.words, end.err)
			}
		case <-time.After(30 * time.Second):
			t.Fatalf("%d wait for ever", count)
		}
	}
}

// A scan has a day, and a question less than a minute.
func TestLimitsOfTime(t *testing.T) {
	if atOnce > time.Minute || longestScan > 24*time.Hour {
		t.Errorf("%v, %v", atOnce, longestScan)
	}
}
