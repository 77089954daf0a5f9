package answering

import (
	"io"

	"syncthing-audit/ask"
	"syncthing-audit/audit"
	"syncthing-audit/commandline"
	"syncthing-audit/exit"
	"syncthing-audit/finding"
	"syncthing-audit/inputs"
	"syncthing-audit/join"
	"syncthing-audit/rows"
)

// Check joins homes and parts, and answers.
func Check(asked commandline.Options, output, log io.Writer) (int, error) {
	if err := asked.CheckInputs(); err != nil {
		return 0, err
	}
	if err := CheckForm(asked); err != nil {
		return 0, err
	}
	program := ask.Program{Path: asked.Program}
	if err := program.Find(); err != nil {
		return 0, err
	}
	opened, err := inputs.Open(asked)
	if err != nil {
		return 0, err
	}
	defer opened.Close()
	kept, err := Remember(asked.History, opened)
	if err != nil {
		return 0, err
	}
	defer kept.Close()
	opened.TellLeft(log)
	if asked.Lines {
		inputs.TellDevices(log, opened.Devices)
	}
	answer, err := opened.Audited(asked, log, func() (*finding.Answer, error) { return Of(opened, asked, program) })
	if err != nil {
		return 0, err
	}
	return kept.Tell(output, log, asked, answer)
}

// Of audits what was opened.
func Of(opened *inputs.Inputs, asked commandline.Options, program ask.Program) (*finding.Answer, error) {
	plan, err := join.NewPlanWithout(inputs.WhyLeft(opened.Left), opened.Devices, asked.Folders, asked.KnownObservers()...)
	if err != nil {
		return nil, err
	}
	replies := audit.NewReplies()
	pool := ask.NewPool(program, asked.Jobs, func(next *rows.Piece, reply *ask.Reply) {
		replies.Take(next, reply)
		opened.Work.Answered.Store(int64(next.Place) + 1)
	})
	options := opened.Options(asked)
	options.AsRows = !asked.Bytes
	answer, err := audit.Collect(plan, options, func(next *rows.Piece) error {
		opened.Work.Asked.Add(1)
		return pool.Ask(next)
	})
	if failed := pool.Close(); failed != nil {
		return nil, failed
	}
	if err != nil {
		return nil, err
	}
	inputs.AddLeft(answer, opened.Left)
	return answer, replies.AddTo(answer)
}

// Status gives the exit status for an answer.
func Status(answer *finding.Answer) int {
	_, first := answer.First()
	switch {
	case first != nil:
		return exit.NotSettled
	case answer.IsPartial():
		return exit.Partial
	}
	return exit.Done
}
