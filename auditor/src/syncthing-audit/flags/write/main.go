// The command write writes what is made of the flags: go run syncthing-audit/flags/write AUDITOR, with the folder auditor.
package main

import (
	"log"
	"os"
	"path/filepath"

	"syncthing-audit/flags/render"
)

func main() {
	if len(os.Args) != 2 {
		log.Fatal("usage: write AUDITOR")
	}
	files, err := render.Files(os.Args[1])
	if err != nil {
		log.Fatal(err)
	}
	for place, text := range files {
		if err := os.WriteFile(filepath.Join(os.Args[1], place), []byte(text), 0o644); err != nil {
			log.Fatal(err)
		}
	}
}
