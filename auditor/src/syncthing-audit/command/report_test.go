package command

import (
	"os"
	"path/filepath"
	"strings"
	"testing"
	"time"

	"syncthing-audit/exit"
	"syncthing-audit/fixture"
	"syncthing-audit/page"
	"syncthing-audit/watch"
)

// watchOf writes the configuration of a watch whose nights leave what they leave in a directory.
func watchOf(t *testing.T, directory string) string {
	return with(t, filepath.Join(t.TempDir(), "watch.xml"), `<watch><device place="/nowhere"/><state path="`+directory+`"/></watch>`)
}

// A page is made of an answer to homes and parts, and has the status of that; or of what nights left.
func TestReports(t *testing.T) {
	fixture.UseAuditor(t)
	file := filepath.Join(t.TempDir(), "audit.html")
	read := func() string {
		text, err := os.ReadFile(file)
		if err != nil {
			t.Fatal(err)
		}
		return string(text)
	}
	if status, told, log := toldOfHomes([]string{"report", "--html", file}, wholeHome(t)); status != exit.Partial || told+log != "" || !strings.Contains(read(), "in step as far as audited") {
		t.Errorf("status %d, %s%s", status, told, log)
	}
	kept := filepath.Join(t.TempDir(), "history")
	if status, _, log := toldOfHomes([]string{"report", "--html", file, "--history", kept}, homeOf(t, "x<b>", nil)); status != exit.NotSettled || !strings.Contains(read(), "NOT in step: 1 name wrong") {
		t.Errorf("status %d, %s", status, log)
	}
	var output, log strings.Builder
	if status := Run([]string{"report", "--html", "-", "--home", wholeHome(t)}, &output, &log); status != exit.Partial || !strings.HasPrefix(output.String(), "<!DOCTYPE html>") {
		t.Errorf("status %d, %s", status, log.String())
	}
	directory := t.TempDir()
	left := &page.Kept{Nights: []page.Night{{At: time.Now(), Status: 1, Words: "NOT in step"}}}
	if err := left.Save(directory, func(path, text string) error { return watch.WriteWhole(path, text, 0o600) }); err != nil {
		t.Fatal(err)
	}
	log.Reset()
	if status := Run([]string{"report", "--html", file, "--watch", watchOf(t, directory)}, &output, &log); status != exit.Done || !strings.Contains(read(), "</span> NOT in step</p>") {
		t.Errorf("status %d, %s", status, log.String())
	}
}

// A report that fails leaves the page that was there.
func TestAReportThatFailsLeavesThePage(t *testing.T) {
	fixture.UseAuditor(t)
	file := with(t, filepath.Join(t.TempDir(), "audit.html"), "as it was")
	damaged := t.TempDir()
	with(t, filepath.Join(damaged, "nights.json"), "{")
	for words, due := range map[string]int{
		"report --html " + file + " --watch " + watchOf(t, damaged):                            exit.Refused,
		"report --html " + file + " --watch " + file:                                           exit.Refused,
		"report --html " + file + " --watch /nowhere":                                          exit.Refused,
		"report --html " + file + " /nowhere":                                                  exit.Refused,
		"report --html " + file + " --watch " + watchOf(t, damaged) + " a.part":                exit.Usage,
		"report --html " + file:                                                                exit.Usage,
		"report a.part":                                                                        exit.Usage,
		"report --html " + filepath.Join(filepath.Dir(file), "nowhere/x") + " --watch " + file: exit.Refused,
	} {
		var log strings.Builder
		if status := Run(strings.Split(words, " "), &log, &log); status != due {
			t.Errorf("%s: status %d, %s", words, status, log.String())
		}
	}
	if text, err := os.ReadFile(file); err != nil || string(text) != "as it was" {
		t.Errorf("%s, %v", text, err)
	}
}
