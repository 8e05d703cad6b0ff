package smith

import (
	"bytes"
	"testing"
)

// FuzzModule is an example of a fuzz target: each input becomes a module. Replace the condition with the code under test.
func FuzzModule(f *testing.F) {
	config, err := NewConfig("")
	if err != nil {
		f.Fatal(err)
	}
	f.Fuzz(func(t *testing.T, input []byte) {
		module, err := config.Module(input)
		if err != nil {
			t.Skip(err)
		}
		if !bytes.HasPrefix(module, []byte("\x00asm\x01\x00\x00\x00")) {
			t.Fatal("no module")
		}
	})
}

func TestShape(t *testing.T) {
	config, err := NewConfig("")
	if err != nil {
		t.Fatal(err)
	}
	config.Shapes.Exports = []byte(`(module (func (export "run")))`)
	module, err := config.Module(nil)
	if err != nil || !bytes.Contains(module, []byte("\x03run\x00")) {
		t.Fatal(module, err)
	}
	config.Shapes.Exports = []byte("(modul)")
	_, err = config.Module(nil)
	refused, is := err.(*Refused)
	if !is || refused.Status != 8 {
		t.Fatal(err)
	}
}

func TestRefused(t *testing.T) {
	_, err := Module(`{"max-typos": 3}`, nil)
	refused, is := err.(*Refused)
	if !is || refused.Status != 3 || refused.Error() != "configuration, line 1, column 2: there is no field `max-typos`" {
		t.Fatal(err)
	}
}

func TestInvalid(t *testing.T) {
	config, err := NewConfig("")
	if err != nil {
		t.Fatal(err)
	}
	family := FamilyNamed("preamble")
	invalid, err := config.Invalid(nil, family)
	if err != nil || invalid.Family != family || invalid.Verdict.Kind != Malformed {
		t.Fatal(invalid, err)
	}
	verdict, words, err := Check("", invalid.File)
	if err != nil || verdict != invalid.Verdict || words == "" {
		t.Fatal(verdict, words, err)
	}
	_, err = config.Invalid(nil, Family(99))
	refused, is := err.(*Refused)
	if !is || refused.Status != 10 {
		t.Fatal(err)
	}
}

func TestCheck(t *testing.T) {
	verdict, words, err := Check("", []byte("\x00asm\x01\x00\x00\x00"))
	if err != nil || verdict.Kind != Valid || verdict.Offset != Nowhere || words != "valid" {
		t.Fatal(verdict, words, err)
	}
	_, _, err = Check("[", nil)
	refused, is := err.(*Refused)
	if !is || refused.Status != 3 {
		t.Fatal(err)
	}
}
