package print

import "syncthing-audit/outlook"

// Converging prints what is proved of a folder whose records lead to one end: of each name everything that is known of it leads up to
// one record. Of a folder of which the model foretells more than that, the model's words stand alone.
func (p *Person) Converging(folder string, o *outlook.Outlook, pairs *int64) {
	if o.Lost+o.Depends+o.Stays+o.Changed > 0 {
		return
	}
	if o.Names == 0 || o.NotKnown > 0 {
		p.Line("\nof %s it is proved, by its records:", folder)
	}
	if pairs != nil {
		p.Line("  still to come: %s of a name and a device", Counted(*pairs, "pair", "pairs"))
	}
	p.Line("  proved for devices that keep a few rules (docs/argument/orderly-peers.md): whatever comes first, nothing goes but what a recorded change replaces,")
	p.Line("  and no conflict copy is made")
}
