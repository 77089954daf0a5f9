package watch

import (
	"fmt"
	"math"
	"sort"
	"strconv"
	"strings"
	"time"

	"syncthing-audit/choice"
	"syncthing-audit/summary"
)

// Measured is what is told to Prometheus of a night. What isn't known is absent, and never 0.
type Measured struct {
	Status  int
	Ended   time.Time
	Due     choice.Names
	Answers []*summary.Summary
}

// metric is one with its values, by labels.
type metric struct {
	name, help string
	values     map[string]float64
}

// add adds to the value of these labels.
func (m *metric) add(value float64, labels ...string) {
	m.join(func(had float64) float64 { return had + value }, value, labels)
}

// newest and oldest take a time; of several of one thing that of their name is kept.
func (m *metric) newest(at time.Time, labels ...string) {
	value := float64(at.Unix())
	m.join(func(had float64) float64 { return math.Max(had, value) }, value, labels)
}

func (m *metric) oldest(at time.Time, labels ...string) {
	value := float64(at.Unix())
	m.join(func(had float64) float64 { return math.Min(had, value) }, value, labels)
}

// join joins a value with the one that there is with these labels.
func (m *metric) join(with func(had float64) float64, value float64, labels []string) {
	words := []string{}
	for at := 0; at < len(labels); at += 2 {
		words = append(words, labels[at]+"="+label(labels[at+1]))
	}
	if m.values == nil {
		m.values = map[string]float64{}
	}
	of := strings.Join(words, ",")
	if had, is := m.values[of]; is {
		value = with(had)
	}
	m.values[of] = value
}

// label gives a text as a label's value: Prometheus has these three escapes, and takes UTF-8 alone.
func label(text string) string {
	text = strings.ToValidUTF8(text, "?")
	return `"` + strings.NewReplacer(`\`, `\\`, `"`, `\"`, "\n", `\n`).Replace(text) + `"`
}

// write writes a metric in Prometheus' text format; nothing without a value.
func (m *metric) write(to *strings.Builder) {
	if len(m.values) == 0 {
		return
	}
	fmt.Fprintf(to, "# HELP syncthing_audit_%s %s\n# TYPE syncthing_audit_%s gauge\n", m.name, m.help, m.name)
	all := []string{}
	for labels := range m.values {
		all = append(all, labels)
	}
	sort.Strings(all)
	for _, labels := range all {
		value := strconv.FormatFloat(m.values[labels], 'f', -1, 64)
		if labels != "" {
			labels = "{" + labels + "}"
		}
		fmt.Fprintf(to, "syncthing_audit_%s%s %s\n", m.name, labels, value)
	}
}

// Text gives the metrics in Prometheus' text format. Of each slice there are values of its own, on its night alone.
func (m Measured) Text() string {
	status := &metric{name: "status", help: "Exit status of the last night: 0 in step, 1 not, 6 in step as far as audited, else no answer."}
	ended := &metric{name: "run_timestamp_seconds", help: "When the last night ended."}
	wrong := &metric{name: "names_wrong", help: "Names that keep a folder from being in step."}
	names := &metric{name: "names", help: "Names of a folder that were audited."}
	out := &metric{name: "left_out", help: "Devices and folders that were left out."}
	spread := &metric{name: "bytes_changed_everywhere", help: "Files whose bytes changed on all devices under one time."}
	gone := &metric{name: "files_gone", help: "Files that went from all devices of a folder from which most went at once."}
	slice := &metric{name: "slice", help: "Which slice of the names the last night was of."}
	read := &metric{name: "part_timestamp_seconds", help: "When a device's files were read last."}
	oldest := &metric{name: "oldest_read_timestamp_seconds", help: "When the file of a folder at a device was read whose last reading is the oldest."}
	never := &metric{name: "files_never_read", help: "Files of a folder at a device that were never read as they are recorded now."}
	status.add(float64(m.Status))
	ended.add(float64(m.Ended.Unix()))
	ofSlice := []string{}
	if m.Due.IsOfSlice() {
		slice.add(float64(m.Due.Slice), "of", strconv.Itoa(m.Due.Slices))
		ofSlice = []string{"slice", fmt.Sprintf("%d/%d", m.Due.Slice, m.Due.Slices)}
	}
	for _, answer := range m.Answers {
		out.add(float64(len(answer.LeftOut)))
		for _, folder := range answer.Folders {
			labels := append([]string{"folder", folder.ID}, ofSlice...)
			wrong.add(float64(folder.Wrong), labels...)
			names.add(float64(folder.Names), labels...)
		}
		called := map[string]string{}
		for _, device := range answer.Devices {
			called[device.ID] = device.Name
			read.newest(device.Read, "device", device.ID, "name", device.Name)
		}
		if answer.Since == nil {
			continue
		}
		spread.add(float64(answer.Since.Count))
		for _, emptied := range answer.Since.Emptied {
			gone.add(float64(emptied.Files), "folder", emptied.Folder)
		}
		for _, read := range answer.Since.Read {
			if read.Files > 0 {
				oldest.oldest(read.Oldest, "folder", read.Folder, "device", read.Device, "name", called[read.Device])
			}
		}
		for _, waiting := range answer.Since.Waiting {
			never.add(float64(waiting.Never), "folder", waiting.Folder, "device", waiting.Device, "name", called[waiting.Device])
		}
	}
	text := &strings.Builder{}
	for _, each := range []*metric{status, ended, wrong, names, out, spread, gone, slice, read, oldest, never} {
		each.write(text)
	}
	return text.String()
}
