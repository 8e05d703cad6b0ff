package smith

// #include "smith.h"
import "C"

// Kind is what a file is.
type Kind uint32

const (
	// Valid is a valid module.
	Valid Kind = C.SMITH_VALID
	// Invalid is a module that isn't valid.
	Invalid Kind = C.SMITH_INVALID
	// Malformed is no module, or one with a form of a feature that is off.
	Malformed Kind = C.SMITH_MALFORMED
	// NotJudged is a module of which some body isn't judged, and all before that body is valid.
	NotJudged Kind = C.SMITH_NOT_JUDGED
)

// Nowhere is the number in place of an index or an offset that there isn't.
const Nowhere = ^uint64(0)

// Verdict is what a file is, by the numbers that smith.h names.
type Verdict struct {
	// Kind is what the file is.
	Kind Kind
	// Rule is the rule that an invalid module breaks, or 0.
	Rule uint32
	// Reason is the rule that a malformed file breaks, or 0.
	Reason uint32
	// Item is the kind of the item, or 0.
	Item uint32
	// Index is the index of the item, with imported items first, or 0.
	Index uint64
	// Inner is the index of the instruction in the item's body, or of the run of locals, or Nowhere.
	Inner uint64
	// Offset is where in the file that is, counted from 0, or Nowhere.
	Offset uint64
}

func verdictOf(numbers C.struct_smith_verdict) Verdict {
	return Verdict{Kind(numbers.kind), uint32(numbers.rule), uint32(numbers.reason), uint32(numbers.item), uint64(numbers.index),
		uint64(numbers.inner), uint64(numbers.offset)}
}

// Check returns whether file is a valid module in the binary format, and if not, where and by which rule, in numbers and in words. All
// features are on that are known, changed by the fields that the text of a configuration sets. The error is a *Refused.
func Check(config string, file []byte) (Verdict, string, error) {
	bytes, out := []byte(config), make([]byte, 1<<12)
	for {
		var numbers C.struct_smith_verdict
		answer := C.smith_check(pointer(bytes), C.size_t(len(bytes)), pointer(file), C.size_t(len(file)), &numbers, pointer(out),
			C.size_t(len(out)))
		switch answer.status {
		case C.SMITH_MADE:
			return verdictOf(numbers), string(out[:answer.length]), nil
		case C.SMITH_SHORT:
			out = make([]byte, answer.length)
		default:
			_, err := NewConfig(config)
			if err == nil {
				err = &Refused{uint32(answer.status), "out of memory"}
			}
			return Verdict{}, "", err
		}
	}
}
