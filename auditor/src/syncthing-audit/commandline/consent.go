package commandline

import (
	"flag"

	"syncthing-audit/audit"
)

// ConsentFlags are the flags that say what may be left out.
func ConsentFlags(flags *flag.FlagSet, read *Options) {
	flags.BoolVar(&read.Strict, "strict", false, "")
	flags.Var(Kinds(read.LeaveOut), "leave-out", "")
}

// Consent says what may be left out.
func (o *Options) Consent() audit.Consent {
	return audit.Consent{IsStrict: o.Strict, Kinds: o.LeaveOut}
}
