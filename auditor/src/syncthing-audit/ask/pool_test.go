package ask

import (
	"fmt"
	"os"
	"path/filepath"
	"reflect"
	"sync/atomic"
	"testing"

	"syncthing-audit/rows"
)

// aProgram gives a program that does what these lines of a shell do.
func aProgram(t *testing.T, lines string) Program {
	path := filepath.Join(t.TempDir(), "program")
	if err := os.WriteFile(path, []byte("#!/bin/sh\n"+lines+"\n"), 0o700); err != nil {
		t.Fatal(err)
	}
	return Program{Path: path}
}

// answersOf gives the places of the documents in the order in which their replies come.
func answersOf(program Program, count int) ([]int, error) {
	var places []int
	var documents []*rows.Piece
	pool := NewPool(program, 4, func(one *rows.Piece, _ *Reply) { places = append(places, one.Place) })
	for place := 0; place < count; place++ {
		documents = append(documents, &rows.Piece{Folder: "docs", Place: place, Written: []byte{byte('0' + place%10)}})
		if pool.Ask(documents[place]) != nil {
			break
		}
	}
	err := pool.Close()
	for _, one := range documents {
		if err == nil && one.Written != nil {
			err = fmt.Errorf("document %d is still in memory", one.Place)
		}
	}
	return places, err
}

// The first document takes the longest, and its reply comes first.
func TestRepliesComeInOrder(t *testing.T) {
	program := aProgram(t, `read -r text; case $text in 0) sleep 0.3;; esac
echo firm; echo "folder docs: 1 names, 0 deleted, 2 devices"`)
	places, err := answersOf(program, 8)
	if err != nil || !reflect.DeepEqual(places, []int{0, 1, 2, 3, 4, 5, 6, 7}) {
		t.Errorf("%v, %v", places, err)
	}
}

func TestOneFailureEndsAll(t *testing.T) {
	program := aProgram(t, `read -r text; case $text in 3) echo "refused: 184 Range"; exit 2;; esac
echo firm; echo "folder docs: 1 names, 0 deleted, 2 devices"`)
	if places, err := answersOf(program, 8); err == nil {
		t.Errorf("%v without an error", places)
	}
}

// While the first document's reply is waited for, no more documents are taken than memory has room for.
func TestRepliesThatWaitAreFew(t *testing.T) {
	const workers, count = 2, 30
	allowed := filepath.Join(t.TempDir(), "allowed")
	program := aProgram(t, `read -r text; case $text in 0) while [ ! -e '`+allowed+`' ]; do sleep 0.1; done; sleep 1;; esac
echo firm; echo "folder docs: 1 names, 0 deleted, 2 devices"`)
	var asked, before int64
	pool := NewPool(program, workers, func(one *rows.Piece, _ *Reply) {
		if one.Place == 0 {
			before = atomic.LoadInt64(&asked)
		}
	})
	for place := 0; place < count; place++ {
		if place == ahead*workers {
			os.WriteFile(allowed, nil, 0o600)
		}
		text := "0"
		if place > 0 {
			text = "1"
		}
		if err := pool.Ask(&rows.Piece{Folder: "docs", Place: place, Written: []byte(text)}); err != nil {
			t.Fatal(err)
		}
		atomic.AddInt64(&asked, 1)
	}
	if err := pool.Close(); err != nil || before != ahead*workers {
		t.Errorf("%d documents were asked before the first one's reply: %v", before, err)
	}
}
