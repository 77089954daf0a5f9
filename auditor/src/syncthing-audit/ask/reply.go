package ask

import (
	"strings"

	"golang.org/x/exp/slices"
	"syncthing-audit/finding"
)

// answers are what the program wrote of one document for each of its commands.
type answers struct{ check, explanation, firm, convergence string }

// ReadReply reads what 'check', 'explain', 'firm' and 'converge' write of a document of one folder, one behind the other. Of a settled document
// 'explain' may be missing.
func ReadReply(folder, text string) (*Reply, error) {
	lines := strings.SplitAfter(text, "\n")
	begins := func(yes string) int {
		return slices.IndexFunc(lines, func(line string) bool { return line == yes+"\n" || strings.HasPrefix(line, "not "+yes+": ") })
	}
	ofFirm, ofConverge := begins(firm), begins(converging)
	if ofFirm < 2 || ofConverge < ofFirm {
		return nil, refused("what syncaudit's check, explain, firm and converge write isn't all there")
	}
	join := func(begin, end int) string { return strings.Join(lines[begin:end], "") }
	return (&answers{join(0, 2), join(2, ofFirm), join(ofFirm, ofConverge), join(ofConverge, len(lines))}).reply(folder)
}

// reply reads the answers, and says where one of them doesn't go with another one.
func (a *answers) reply(folder string) (*Reply, error) {
	checked, err := readReport(folder, a.check, settled)
	if err != nil {
		return nil, err
	}
	reply, err := a.replyOnFirm(folder)
	if err != nil {
		return nil, err
	}
	converges, err := readReport(folder, a.convergence, converging)
	if err != nil {
		return nil, err
	}
	if a.explanation != settled+"\n" {
		if reply.Failures, err = readExplanation(folder, a.explanation); err != nil {
			return nil, err
		}
	}
	if first := finding.First(reply.Failures, finding.Reasons); !isSame(checked.first, first) {
		return nil, refused("syncaudit's answers differ: %q and %q", told(folder, checked.first, settled), told(folder, first, settled))
	}
	isFirm := reply.NotFirm == nil || finding.IsFirmReason(reply.NotFirm.Reason)
	if isFirm != (checked.first == nil) || !isFirm && *reply.NotFirm != *checked.first || !checked.countsAs(reply) || !converges.countsAs(reply) {
		return nil, refused("syncaudit's answers differ: %q, %q and %q", firstLine(a.check), firstLine(a.firm), firstLine(a.convergence))
	}
	if !isFirm {
		reply.NotFirm = nil
	}
	reply.Convergence = finding.Convergence{First: converges.first, Pairs: converges.pairs}
	return reply, nil
}

// replyOnFirm reads what 'firm' wrote.
func (a *answers) replyOnFirm(folder string) (*Reply, error) {
	report, err := readReport(folder, a.firm, firm)
	if err != nil {
		return nil, err
	}
	return &Reply{Names: report.names, Deleted: report.deleted, NotFirm: report.first}, nil
}

// readExplanation reads what 'explain' writes, in its order; nothing where nothing is explained.
func readExplanation(folder, text string) ([]finding.Failure, error) {
	return readFailures(folder, text, settled, func(last, next *finding.Failure) bool {
		return last == nil || finding.IsBefore(last, next, finding.Reasons)
	})
}
