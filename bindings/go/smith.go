// Package smith makes valid WebAssembly modules from bytes, and files that are no valid modules, by libsmith.a of dist, or of a folder that
// CGO_LDFLAGS names.
package smith

// #cgo CFLAGS: -I${SRCDIR}/..
// #cgo LDFLAGS: -L${SRCDIR}/../../dist -l:libsmith.a
// #include "smith.h"
//
// typedef struct smith_answer (*shaped)(const struct smith_config *, const struct smith_shapes *, const uint8_t *, size_t, uint8_t *,
//                                       size_t);
//
// // Calls with shapes in a struct of C, since one of Go would hold pointers.
// static struct smith_answer call_shaped(shaped call, const struct smith_config *config,
//                                        const uint8_t *available_imports, size_t available_imports_length,
//                                        const uint8_t *exports, size_t exports_length,
//                                        const uint8_t *module_shape, size_t module_shape_length,
//                                        const uint8_t *input, size_t input_length, uint8_t *out, size_t out_length) {
//     struct smith_shapes shapes = {
//         available_imports, available_imports_length, exports, exports_length, module_shape, module_shape_length,
//     };
//     return call(config, &shapes, input, input_length, out, out_length);
// }
//
// // Does the same for an invalid file.
// static struct smith_answer call_invalid(const struct smith_config *config,
//                                         const uint8_t *available_imports, size_t available_imports_length,
//                                         const uint8_t *exports, size_t exports_length,
//                                         const uint8_t *module_shape, size_t module_shape_length,
//                                         const uint8_t *input, size_t input_length, const uint32_t *families, size_t families_count,
//                                         struct smith_fault *fault, uint8_t *out, size_t out_length) {
//     struct smith_shapes shapes = {
//         available_imports, available_imports_length, exports, exports_length, module_shape, module_shape_length,
//     };
//     return smith_invalid_shaped(config, &shapes, input, input_length, families, families_count, fault, out, out_length);
// }
import "C"

import "unsafe"

// Refused is the reason why there is no module.
type Refused struct {
	// Status is a number that smith.h names.
	Status uint32
	// Words are the reason in words.
	Words string
}

func (refused *Refused) Error() string { return refused.Words }

// pointer returns a pointer that isn't nil, even to no bytes.
func pointer(bytes []byte) *C.uint8_t {
	if len(bytes) == 0 {
		return new(C.uint8_t)
	}
	return (*C.uint8_t)(unsafe.Pointer(&bytes[0]))
}

// Shapes are modules in the binary or the text format, or empty for none, that say what modules import and export.
type Shapes struct {
	// AvailableImports has the imports to choose from.
	AvailableImports []byte
	// Exports has the exports.
	Exports []byte
	// ModuleShape has the first types, and all imports and exports. The other two are then not used.
	ModuleShape []byte
}

// Config is a configuration that is read once, for any number of modules, and its shapes, which are read for each. Any number of goroutines
// may use it at the same time, while none changes its shapes.
type Config struct {
	// Shapes are the shapes of the modules.
	Shapes Shapes
	kept   C.struct_smith_config
}

// NewConfig reads a JSON object, or an empty text for the default configuration. The error is a *Refused.
func NewConfig(text string) (*Config, error) {
	config, bytes := new(Config), []byte(text)
	answer := C.smith_config_read(pointer(bytes), C.size_t(len(bytes)), &config.kept)
	if answer.status == C.SMITH_MADE {
		return config, nil
	}
	out := make([]byte, 1<<16)
	return nil, refused(out, C.smith_refusal(pointer(bytes), C.size_t(len(bytes)), pointer(nil), 0, pointer(out), C.size_t(len(out))))
}

// call returns what call answers for the shapes and input.
func (config *Config) call(call C.shaped, input, out []byte) C.struct_smith_answer {
	shapes, length := config.Shapes, func(bytes []byte) C.size_t { return C.size_t(len(bytes)) }
	return C.call_shaped(call, &config.kept, pointer(shapes.AvailableImports), length(shapes.AvailableImports),
		pointer(shapes.Exports), length(shapes.Exports), pointer(shapes.ModuleShape), length(shapes.ModuleShape),
		pointer(input), length(input), pointer(out), length(out))
}

// invalid returns what smith_invalid_shaped answers for the shapes, input and families.
func (config *Config) invalid(input []byte, families []Family, fault *C.struct_smith_fault, out []byte) C.struct_smith_answer {
	numbers := make([]C.uint32_t, len(families)+1)
	for at, family := range families {
		numbers[at] = C.uint32_t(family)
	}
	shapes, length := config.Shapes, func(bytes []byte) C.size_t { return C.size_t(len(bytes)) }
	return C.call_invalid(&config.kept, pointer(shapes.AvailableImports), length(shapes.AvailableImports),
		pointer(shapes.Exports), length(shapes.Exports), pointer(shapes.ModuleShape), length(shapes.ModuleShape),
		pointer(input), length(input), &numbers[0], C.size_t(len(families)), fault, pointer(out), length(out))
}

// refusal returns why there is no module of input, in words that are put into out.
func (config *Config) refusal(input, out []byte) *Refused {
	return refused(out, config.call(C.shaped(C.smith_refusal_shaped), input, out))
}

// Module returns the module of input, with bodies of instructions, in the binary format. The error is a *Refused.
func (config *Config) Module(input []byte) ([]byte, error) {
	out := make([]byte, 1<<16)
	for {
		answer := config.call(C.shaped(C.smith_binary_shaped), input, out)
		switch answer.status {
		case C.SMITH_MADE:
			return out[:answer.length], nil
		case C.SMITH_SHORT:
			out = make([]byte, answer.length)
		default:
			return nil, config.refusal(input, out)
		}
	}
}

// Module returns the module of input and a configuration that is read for it alone.
func Module(config string, input []byte) ([]byte, error) {
	read, err := NewConfig(config)
	if err != nil {
		return nil, err
	}
	return read.Module(input)
}

// refused returns the reason that a call put into out. Words that are longer than out are left out.
func refused(out []byte, answer C.struct_smith_answer) *Refused {
	if answer.status == C.SMITH_SHORT {
		return &Refused{C.SMITH_SHORT, ""}
	}
	return &Refused{uint32(answer.status), string(out[:answer.length])}
}
