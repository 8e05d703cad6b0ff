// A `consume` and a `validate` over wabt 1.0.32: what `wasm-validate --enable-all` does with a file. docs/BINDINGS.md has the commands.
//
// With -DABORT a module that wabt refuses is a crash, since each is valid: turn off in the configuration what wabt lacks. `validate` is for
// files that are not valid: the configuration must also turn on what wabt has, as {"preset": "wabt"} does.
#include <cstdint>
#include <cstdlib>

#include "wabt/binary-reader-ir.h"
#include "wabt/binary-reader.h"
#include "wabt/error-formatter.h"
#include "wabt/ir.h"
#include "wabt/validator.h"

using namespace wabt;

static Result read_and_validate(const uint8_t* bytes, size_t length, Errors* errors) {
  Features features;
  features.EnableAll();
  Module module;
  ReadBinaryOptions options(features, nullptr, true, true, true);
  CHECK_RESULT(ReadBinaryIr("module", bytes, length, options, errors, &module));
  return ValidateModule(&module, errors, ValidateOptions(features));
}

extern "C" void consume(const uint8_t* bytes, size_t length) {
  Errors errors;
  [[maybe_unused]] Result result = read_and_validate(bytes, length, &errors);
#ifdef ABORT
  if (Failed(result)) {
    FormatErrorsToFile(errors, Location::Type::Binary);
    abort();
  }
#endif
}

extern "C" int validate(const uint8_t* bytes, size_t length) {
  Errors errors;
  return Succeeded(read_and_validate(bytes, length, &errors));
}
