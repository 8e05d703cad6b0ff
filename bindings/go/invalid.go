package smith

// #include "smith.h"
import "C"

// Family is a family of changes that make a module an invalid file, by a number that smith.h names.
type Family uint32

// String returns the name of the family, such as "operand-type", or an empty text if no family has the number.
func (family Family) String() string { return C.GoString(C.smith_family_name(C.uint32_t(family))) }

// FamilyNamed returns the family with this name, or 0 if there is none.
func FamilyNamed(name string) Family {
	for family := Family(1); family.String() != ""; family++ {
		if family.String() == name {
			return family
		}
	}
	return 0
}

// InvalidFile is a file that is no valid module.
type InvalidFile struct {
	// File has the bytes.
	File []byte
	// Family is that of the change.
	Family Family
	// Verdict has the first fault of the file. Its kind is Invalid or Malformed.
	Verdict Verdict
}

// Invalid returns the module of input with one change that breaks a rule, of one of the families, or of any if there are none. The file is
// invalid under the features that the configuration turns on, and may be valid under more. The error is a *Refused: with SMITH_NO_CHANGE if
// no change that was tried breaks a rule, and with SMITH_NO_FAMILY if a family is none.
func (config *Config) Invalid(input []byte, families ...Family) (*InvalidFile, error) {
	out := make([]byte, 1<<16)
	for {
		var fault C.struct_smith_fault
		answer := config.invalid(input, families, &fault, out)
		switch answer.status {
		case C.SMITH_MADE:
			return &InvalidFile{out[:answer.length], Family(fault.family), verdictOf(fault.verdict)}, nil
		case C.SMITH_SHORT:
			out = make([]byte, answer.length)
		case C.SMITH_NO_CHANGE:
			return nil, &Refused{C.SMITH_NO_CHANGE, "no change that was tried breaks a rule"}
		case C.SMITH_NO_FAMILY:
			return nil, &Refused{C.SMITH_NO_FAMILY, "a number is that of no family of changes"}
		default:
			return nil, config.refusal(input, out)
		}
	}
}
