package shell

import "testing"

func TestQuoted(t *testing.T) {
	for name, quoted := range map[string]string{"a/b-c.txt": "a/b-c.txt", "-rf": "'-rf'", "it's": `'it'\''s'`, "über": "'über'", `a\b'`: `'a'\\'b'\'`, `'\`: `\'\\`, "a^b": "'a^b'", "%self": "'%self'", "a\nb": `'[not-for-typing:a\x0ab]'`,
		"odd\xff'": `'[not-for-typing:odd\xff\x27]'`, "~": "'~'", "$HOME": "'$HOME'", "": "''", "\u202e": `'[not-for-typing:\xe2\x80\xae]'`} {
		if Quoted(name) != quoted {
			t.Errorf("%q is quoted as %s, not %s", name, Quoted(name), quoted)
		}
	}
}

func TestPrintable(t *testing.T) {
	if told := Printable("my\x1b[2J phone"); told != "my?[2J phone" {
		t.Error(told)
	}
}

// A name is read as an answer gives it.
func TestNamed(t *testing.T) {
	for word, name := range map[string]string{"./-a": "-a", "-a": "-a", "a/b": "a/b", ".": ".", "./": "./", ".a": ".a", "./a": "a"} {
		if read := Named(word); read != name {
			t.Errorf("%s: %s", word, read)
		}
	}
}

func TestPath(t *testing.T) {
	for name, quoted := range map[string]string{"-rf": "./-rf", "-r f": "'./-r f'", "a/-rf": "a/-rf", "-\n": `'[not-for-typing:./-\x0a]'`, "`a`$b": "'`a`$b'"} {
		if Path(name) != quoted {
			t.Errorf("%q is the word %s, not %s", name, Path(name), quoted)
		}
	}
}

func TestWords(t *testing.T) {
	for text, word := range map[string]string{"--home": "--home", "-": "-", "a b": "'a b'", "--a b": "'--a b'", "": "''", "$x": "'$x'"} {
		if told := Word(text); told != word {
			t.Errorf("%q: %s, not %s", text, told, word)
		}
	}
	if told := Words([]string{"--home", "a b", "-x y"}); told != "--home 'a b' '-x y'" {
		t.Error(told)
	}
}

// A word for a shell alone is as typed where that can be.
func TestExactWords(t *testing.T) {
	if told := ExactWords([]string{"--home", "a\n'b", "it's", "c"}); told != "--home 'a\n'\\''b' 'it'\\''s' c" {
		t.Errorf("%q", told)
	}
}
