package audit

// Consent says what may be left out of an answer. All that can be left out is, unless the audit is strict: then only these kinds are.
type Consent struct {
	IsStrict bool
	Kinds    map[string]bool
}

// Has says whether something of a kind is left out, and not refused.
func (c Consent) Has(kind string) bool { return !c.IsStrict || c.Kinds[kind] }

// Of gives a strict consent to some kinds alone.
func Of(kinds ...string) Consent {
	consent := Consent{IsStrict: true, Kinds: map[string]bool{}}
	for _, kind := range kinds {
		consent.Kinds[kind] = true
	}
	return consent
}
