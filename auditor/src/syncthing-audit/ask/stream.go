package ask

import (
	"strings"

	"golang.org/x/exp/slices"
	"syncthing-audit/finding"
	"syncthing-audit/rows"
)

// answerStream asks which names of a stream aren't firm: what is firm is settled, too. Of these alone it asks for all that keeps them from that, which
// takes longer, and whether they come right by themselves.
func (p Program) answerStream(asked *rows.Piece) (*Reply, error) {
	loose, report, err := p.stream(asked, firm, "--firm")
	if err != nil {
		return nil, err
	}
	unknown := int64(asked.Unknown)
	if report.deleted < unknown {
		return nil, refused("syncaudit's answer to %s counts %d names deleted, and nothing holds %d", asked.About(), report.deleted, unknown)
	}
	reply := &Reply{Names: report.names - unknown, Deleted: report.deleted - unknown}
	if len(loose) == 0 {
		return reply, nil
	}
	some := asked.Some(namesOf(loose))
	explained, _, err := p.stream(some, firm, "--explain", "--firm")
	if err != nil {
		return nil, err
	}
	if !slices.Equal(firsts(explained), loose) {
		return nil, refused("syncaudit's answers to %s differ", some.About())
	}
	_, comes, err := p.stream(some, converging, "--converge")
	if err != nil {
		return nil, err
	}
	reply.take(explained, comes)
	return reply, nil
}

// stream asks this of a stream, and gives the lines on names and the report.
func (p Program) stream(asked *rows.Piece, yes string, flags ...string) ([]finding.Failure, *report, error) {
	text, err := p.text(asked.Written, append([]string{"rows"}, flags...)...)
	if err != nil {
		return nil, nil, err
	}
	return readStream(asked, text, yes)
}

// readStream reads an answer to a stream: lines on names, which come in the stream's order, with what is indented below, and a report on all its names,
// which begins with the first of these lines.
func readStream(asked *rows.Piece, text, yes string) ([]finding.Failure, *report, error) {
	behind := beginOfReport(text)
	report, err := readReport(asked.Folder, text[behind:], yes)
	if err != nil {
		return nil, nil, err
	}
	at := 0
	all, err := readFailures(asked.Folder, text[:behind], yes, func(last, next *finding.Failure) bool {
		for at < len(asked.Rows) && asked.Rows[at].Name != next.Name {
			at++
		}
		return at < len(asked.Rows) && (last == nil || last.Name != next.Name || finding.IsBefore(last, next, reasonsOf[yes]))
	})
	if err != nil {
		return nil, nil, err
	}
	if first := finding.First(all, reasonsOf[yes]); !isSame(first, report.first) {
		return nil, nil, refused("syncaudit's answer to %s ends with %q, and its first line says %q", asked.About(), told(asked.Folder, report.first, yes), told(asked.Folder, first, yes))
	}
	if report.names != int64(len(asked.Rows)) {
		return nil, nil, refused("syncaudit's answer to %s counts %d names of %d", asked.About(), report.names, len(asked.Rows))
	}
	return all, report, nil
}

// beginOfReport gives where the last two lines begin.
func beginOfReport(text string) int {
	begin := len(text)
	for lines := 0; lines < 2 && begin > 0; lines++ {
		begin = strings.LastIndexByte(text[:begin-1], '\n') + 1
	}
	return begin
}

// namesOf gives the names of failures.
func namesOf(all []finding.Failure) map[string]bool {
	names := map[string]bool{}
	for _, one := range all {
		names[one.Name] = true
	}
	return names
}

// firsts gives the first failure of each name.
func firsts(all []finding.Failure) []finding.Failure {
	found := []finding.Failure{}
	for _, one := range all {
		if len(found) == 0 || found[len(found)-1].Name != one.Name {
			found = append(found, one)
		}
	}
	return found
}

// take takes all that keeps names from being firm, and whether they come right. Of what isn't settled no more is told than that.
func (r *Reply) take(explained []finding.Failure, comes *report) {
	for _, one := range explained {
		if !finding.IsFirmReason(one.Reason) {
			r.Failures = append(r.Failures, one)
		}
	}
	if len(r.Failures) == 0 {
		r.NotFirm = finding.First(explained, finding.FirmReasons)
	}
	r.Convergence = finding.Convergence{First: comes.first, Pairs: comes.pairs}
}
