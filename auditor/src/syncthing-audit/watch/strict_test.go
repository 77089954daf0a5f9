package watch

import (
	"strings"
	"testing"
)

// Nothing of a configuration is passed over: what stands between elements, what stands twice or is empty, and what says nothing is refused, and who is to be
// told of that is known.
func TestNothingOfAConfigurationIsPassedOver(t *testing.T) {
	for text, told := range map[string]string{
		strings.Replace(all, `<notify command="n"/>`, "<notify>n</notify>", 1):                              "<notify> says nothing",
		strings.Replace(all, `<ping command="p"/>`, "<ping/>", 1):                                           "<ping> says nothing",
		strings.Replace(all, `<notify command="n"/>`, `<notify command=""/>`, 1):                            `<notify command=""> is empty`,
		strings.Replace(all, `<state path="s"/>`, `<state path=""/>`, 1):                                    `<state path=""> is empty`,
		strings.Replace(all, `<metrics path="m"/>`, `<metrics path="m">x</metrics>`, 1):                     "text stands between elements: x",
		strings.Replace(all, `<device place="laptop:"/>`, `<device place="laptop:" place="server:"/>`, 1):   "<device> has the attribute place twice",
		strings.Replace(all, `<device place="laptop:"/>`, `<device place="laptop:" x:place="server:"/>`, 1): "<device> has the attribute place twice",
		strings.Replace(all, `<folder id="docs"/>`, `docs<folder id="docs"/>`, 1):                           "text stands between elements: docs",
		strings.Replace(all, `<folder id="docs"/>`, "<![CDATA[\x7fdocs]]>"+`<folder id="docs"/>`, 1):        "text stands between elements: ",
	} {
		read, err := parse([]byte(text))
		if err == nil || !strings.Contains(err.Error(), told) || strings.Contains(err.Error(), "\x7f") || len(read.Mail) != 1 {
			t.Errorf("%s: %v", text, err)
		}
	}
	if _, err := parse([]byte("<?xml version=\"1.0\"?>\n<!-- a comment -->\n" + strings.ReplaceAll(all, "><", ">\n\t<!-- x --><"))); err != nil {
		t.Error(err)
	}
}
