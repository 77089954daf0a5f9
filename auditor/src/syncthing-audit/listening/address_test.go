package listening

import "testing"

// Addresses stand in the tables as numbers of 32 bits, whose lowest byte comes first.
func TestAddressesInTables(t *testing.T) {
	for text, address := range map[string]string{"04030201": "1.2.3.4", "0100007F": "127.0.0.1", "B80D0120000000000302000004030201": "2001:db8::203:102:304", "": "<nil>"} {
		if found := addressIn(text); found.String() != address {
			t.Errorf("%s is %s, not %s", text, found, address)
		}
	}
}
