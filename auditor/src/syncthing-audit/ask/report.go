package ask

import (
	"regexp"
	"strconv"
	"strings"

	"syncthing-audit/finding"
)

// The first lines of reports on what an answer is yes for. For no, "not " stands before it and the first reason behind.
const (
	settled    = "settled"
	firm       = "firm"
	converging = "converging"
)

// reasonsOf are why each of these isn't so, in the order in which they are told.
var reasonsOf = map[string][]string{settled: finding.Reasons, firm: finding.AllReasons, converging: finding.ConvergeReasons}

// report is what the program ends an answer with: a verdict, and the counts of one folder.
type report struct {
	first          *finding.Failure // nothing where the answer is yes
	names, deleted int64
	pairs          *int64 // of converging alone: how many pairs of a name and a device are still to come
}

var counts = regexp.MustCompile(`^folder (\S+): ([0-9]+) names, ([0-9]+) deleted, [0-9]+ devices(?:, ([0-9]+) pairs not yet at the winner)?$`)

// readReport reads a report of which the answer may be this word.
func readReport(folder, text, yes string) (*report, error) {
	lines := strings.Split(text, "\n")
	if len(lines) != 3 || lines[2] != "" {
		return nil, refused("syncaudit's report is %q", text)
	}
	counted := counts.FindStringSubmatch(lines[1])
	first, is := readVerdict(folder, lines[0], yes)
	if !is || counted == nil || counted[1] != folder || (counted[4] != "") != (yes == converging) {
		return nil, refused("syncaudit's report begins with %q, and goes on with %q", lines[0], lines[1])
	}
	made := &report{first: first}
	for at, to := range []*int64{&made.names, &made.deleted} {
		*to, _ = strconv.ParseInt(counted[at+2], 10, 64)
	}
	if yes == converging {
		pairs, _ := strconv.ParseInt(counted[4], 10, 64)
		made.pairs = &pairs
	}
	return made, nil
}

// readVerdict gives the first reason in a verdict; nothing where it is yes.
func readVerdict(folder, line, yes string) (*finding.Failure, bool) {
	if line == yes {
		return nil, true
	}
	why := strings.TrimPrefix(line, "not "+yes+": ")
	first, is := readFailure(folder, why, yes)
	return &first, is && why != line
}

// countsAs says whether it counts as many names as a reply.
func (r *report) countsAs(reply *Reply) bool {
	return r.names == reply.Names && r.deleted == reply.Deleted
}

// isSame says whether two failures, or none, are the same.
func isSame(one, other *finding.Failure) bool {
	return (one == nil) == (other == nil) && (one == nil || *one == *other)
}

// told gives a failure as it is written; nothing is said in this word.
func told(folder string, failure *finding.Failure, yes string) string {
	if failure == nil {
		return yes
	}
	return Line(folder, failure)
}
