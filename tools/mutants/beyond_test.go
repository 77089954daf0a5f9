package main

import (
	"os"
	"path/filepath"
	"reflect"
	"strings"
	"testing"
)

// Packages that are built together have a number for each place, and what their tests come to is told by the names of these.
func TestPlacesOfSeveralPackages(t *testing.T) {
	all, err := loadSeveral(t.TempDir(), 2, "syncthing-audit/message", "syncthing-audit/request")
	if err != nil {
		t.Fatal(err)
	}
	byGo, err := all.ofGo()
	if err != nil {
		t.Fatal(err)
	}
	count := map[string]int{}
	for place := range byGo {
		count[place[:strings.Index(place, ".go ")]]++
	}
	if len(count) != 2 || count["syncthing-audit/message/message"] < 5 || count["syncthing-audit/request/request"] < 3 || len(byGo) > len(all.due) {
		t.Errorf("%v of %d places", count, len(all.due))
	}
	log := filepath.Join(t.TempDir(), "log")
	if err := os.WriteFile(log, []byte("1\n2\n2\n0\n999999\nodd\n"), 0o600); err != nil {
		t.Fatal(err)
	}
	found, err := all.placesIn(log, log+".none")
	if err != nil || !reflect.DeepEqual(found, map[string]bool{all.due[0].name: true, all.due[1].name: true}) {
		t.Errorf("%v, %v", found, err)
	}
}

// What classes come to beyond Go's tests is kept in both tables, read again, and gone on with. What a Go test comes to by now, or what isn't there any more, is forgotten.
func TestTablesOfClasses(t *testing.T) {
	directory := t.TempDir()
	of := &several{due: []keyed{{name: "a"}, {name: "b"}, {name: "c"}}}
	open := func(byGo map[string]bool) *beyond {
		made := &beyond{of: of, directory: directory, byGo: byGo, rows: map[string]row{}, classes: map[string]map[string]bool{}}
		if err := made.read(); err != nil {
			t.Fatal(err)
		}
		made.forget()
		return made
	}
	first := open(map[string]bool{"c": true})
	for _, one := range []struct {
		class  string
		places map[string]bool
	}{{"m:A", map[string]bool{"a": true, "c": true}}, {"m:B", map[string]bool{"a": true, "b": true}}, {"m:C", map[string]bool{"c": true}}, {"m:A", map[string]bool{"a": true}}} {
		if err := first.keep(one.class, row{date: "2026-11-29", ended: "passed", seconds: 7, places: len(one.places)}, one.places); err != nil {
			t.Fatal(err)
		}
	}
	text, err := os.ReadFile(filepath.Join(directory, "classes.csv"))
	const due = "class,date,ended,seconds,places,beyond Go's tests,alone\nm:B,2026-11-29,passed,7,2,2,1\nm:A,2026-11-29,passed,7,1,1,0\nm:C,2026-11-29,passed,7,1,0,0\n"
	if err != nil || string(text) != due {
		t.Errorf("%s, %v", text, err)
	}
	if text, err := os.ReadFile(filepath.Join(directory, "beyond.txt")); err != nil || string(text) != "a\tm:A m:B\nb\tm:B\n" {
		t.Errorf("%q, %v", text, err)
	}
	again := open(map[string]bool{"a": true})
	if !reflect.DeepEqual(again.rows, first.rows) || !reflect.DeepEqual(again.classes, map[string]map[string]bool{"b": {"m:B": true}}) {
		t.Errorf("%v, %v", again.rows, again.classes)
	}
	of.due = of.due[:1]
	if gone := open(nil); len(gone.classes) != 1 {
		t.Errorf("%v", gone.classes)
	}
}
