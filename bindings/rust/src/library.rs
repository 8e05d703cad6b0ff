//! The calls of `smith.h`.
use crate::Refused;

const MADE: u32 = 0;
const SHORT: u32 = 1;
const NO_CHANGE: u32 = 9;

#[repr(C)]
pub struct Answer {
    status: u32,
    length: usize,
}

/// A configuration that is read, `struct smith_config`: plain memory, which any number of threads may share.
#[repr(C)]
#[derive(Clone, Copy, Debug)]
pub struct Kept([u64; 48]);

/// What a file is, `struct smith_verdict`.
#[repr(C)]
#[derive(Clone, Copy, Debug, Default)]
pub struct Numbers {
    pub kind: u32,
    pub rule: u32,
    pub reason: u32,
    pub item: u32,
    pub index: u64,
    pub inner: u64,
    pub offset: u64,
}

/// What is said of an invalid file, `struct smith_fault`.
#[repr(C)]
#[derive(Clone, Copy, Debug, Default)]
pub struct FaultNumbers {
    pub verdict: Numbers,
    pub family: u32,
}

/// The bytes of the shapes of a configuration, each of which may be empty.
#[derive(Clone, Debug, Default, PartialEq, Eq)]
pub struct Shapes {
    pub available_imports: Vec<u8>,
    pub exports: Vec<u8>,
    pub module_shape: Vec<u8>,
}

/// A pointer to bytes, and their number.
#[repr(C)]
struct Bytes {
    at: *const u8,
    length: usize,
}

/// The same bytes as `struct smith_shapes`.
#[repr(C)]
pub struct ShapeBytes {
    available_imports: Bytes,
    exports: Bytes,
    module_shape: Bytes,
}

/// A call that makes an output of a configuration that is read, its shapes, an input and a buffer.
pub type Call = unsafe extern "C" fn(*const Kept, *const ShapeBytes, *const u8, usize, *mut u8, usize) -> Answer;

extern "C" {
    fn smith_config_read(config: *const u8, config_length: usize, read: *mut Kept) -> Answer;
    fn smith_refusal(config: *const u8, config_length: usize, input: *const u8, length: usize, out: *mut u8, out_length: usize) -> Answer;
    pub fn smith_binary_shaped(
        config: *const Kept,
        shapes: *const ShapeBytes,
        input: *const u8,
        input_length: usize,
        out: *mut u8,
        out_length: usize,
    ) -> Answer;
    pub fn smith_text_shaped(
        config: *const Kept,
        shapes: *const ShapeBytes,
        input: *const u8,
        input_length: usize,
        out: *mut u8,
        out_length: usize,
    ) -> Answer;
    pub fn smith_wat_shaped(
        config: *const Kept,
        shapes: *const ShapeBytes,
        input: *const u8,
        input_length: usize,
        out: *mut u8,
        out_length: usize,
    ) -> Answer;
    fn smith_refusal_shaped(
        config: *const Kept,
        shapes: *const ShapeBytes,
        input: *const u8,
        input_length: usize,
        out: *mut u8,
        out_length: usize,
    ) -> Answer;
    fn smith_invalid_shaped(
        config: *const Kept,
        shapes: *const ShapeBytes,
        input: *const u8,
        input_length: usize,
        families: *const u32,
        families_count: usize,
        fault: *mut FaultNumbers,
        out: *mut u8,
        out_length: usize,
    ) -> Answer;
    fn smith_check(
        config: *const u8,
        config_length: usize,
        file: *const u8,
        file_length: usize,
        verdict: *mut Numbers,
        out: *mut u8,
        out_length: usize,
    ) -> Answer;
}

/// Returns the status and the output of `call`, which fills a buffer, from one that is enlarged once if necessary.
fn output(mut call: impl FnMut(&mut [u8]) -> Answer) -> (u32, Vec<u8>) {
    let mut out = vec![0; 1 << 16];
    loop {
        let answer = call(&mut out);
        if answer.status != SHORT {
            out.truncate(answer.length);
            return (answer.status, out);
        }
        out.resize(answer.length, 0);
    }
}

/// Returns why there is no module, from a call that puts the reason into a buffer in words.
fn refused(status: u32, explain: impl Fn(&mut [u8]) -> Answer) -> Refused {
    let words = utf8(output(explain).1);
    Refused { status, words }
}

/// Converts text that the library wrote, which is always UTF-8.
pub fn utf8(text: Vec<u8>) -> String {
    String::from_utf8(text).expect("the library should write UTF-8")
}

impl Bytes {
    fn of(bytes: &[u8]) -> Bytes {
        Bytes { at: bytes.as_ptr(), length: bytes.len() }
    }
}

impl Shapes {
    fn bytes(&self) -> ShapeBytes {
        ShapeBytes {
            available_imports: Bytes::of(&self.available_imports),
            exports: Bytes::of(&self.exports),
            module_shape: Bytes::of(&self.module_shape),
        }
    }
}

impl Kept {
    /// Reads the JSON object in `text`. An empty text is the default configuration.
    pub fn read(text: &str) -> Result<Kept, Refused> {
        let mut kept = Kept([0; 48]);
        // SAFETY: the text is a pointer and its length, and `kept` is borrowed exclusively.
        let answer = unsafe { smith_config_read(text.as_ptr(), text.len(), &mut kept) };
        if answer.status == MADE {
            return Ok(kept);
        }
        Err(refused(answer.status, |out| {
            // SAFETY: each pointer is that of a slice with its length, and `out` is borrowed exclusively.
            unsafe { smith_refusal(text.as_ptr(), text.len(), text.as_ptr(), 0, out.as_mut_ptr(), out.len()) }
        }))
    }

    /// Returns the output of `call` for `shapes` and `input`.
    pub fn made(&self, call: Call, shapes: &Shapes, input: &[u8]) -> Result<Vec<u8>, Refused> {
        let shapes = shapes.bytes();
        // SAFETY: `self` was read, each other pointer is that of a slice with its length, and `out` is borrowed exclusively.
        let with = |call: Call, out: &mut [u8]| unsafe { call(self, &shapes, input.as_ptr(), input.len(), out.as_mut_ptr(), out.len()) };
        match output(|out| with(call, out)) {
            (MADE, bytes) => Ok(bytes),
            (status, _) => Err(refused(status, |out| with(smith_refusal_shaped, out))),
        }
    }

    /// Returns an invalid file of `shapes` and `input`, with a change of one of `families` or of any if there are none, and what is said of
    /// it.
    pub fn invalid(&self, shapes: &Shapes, families: &[u32], input: &[u8]) -> Result<(Vec<u8>, FaultNumbers), Refused> {
        let bytes = shapes.bytes();
        let mut fault = FaultNumbers::default();
        let (status, file) = output(|out| {
            let (at, count) = (families.as_ptr(), families.len());
            // SAFETY: `self` was read, each other pointer is that of a slice with its length, and `fault` and `out` are borrowed
            // exclusively.
            unsafe { smith_invalid_shaped(self, &bytes, input.as_ptr(), input.len(), at, count, &mut fault, out.as_mut_ptr(), out.len()) }
        });
        match status {
            MADE => Ok((file, fault)),
            NO_CHANGE => Err(Refused { status, words: "no change that was tried breaks a rule".to_owned() }),
            _ => Err(refused(status, |out| {
                // SAFETY: `self` was read, each other pointer is that of a slice with its length, and `out` is borrowed exclusively.
                unsafe { smith_refusal_shaped(self, &bytes, input.as_ptr(), input.len(), out.as_mut_ptr(), out.len()) }
            })),
        }
    }
}

/// Returns what `file` is in numbers and in words, by the features of the JSON object in `text`, which may be empty.
pub fn judged(text: &str, file: &[u8]) -> Result<(Numbers, String), Refused> {
    let mut numbers = Numbers::default();
    let (status, words) = output(|out| {
        // SAFETY: each pointer is that of a slice with its length, and `numbers` and `out` are borrowed exclusively.
        unsafe { smith_check(text.as_ptr(), text.len(), file.as_ptr(), file.len(), &mut numbers, out.as_mut_ptr(), out.len()) }
    });
    if status == MADE {
        return Ok((numbers, utf8(words)));
    }
    Err(refused(status, |out| {
        // SAFETY: each pointer is that of a slice with its length, and `out` is borrowed exclusively.
        unsafe { smith_refusal(text.as_ptr(), text.len(), text.as_ptr(), 0, out.as_mut_ptr(), out.len()) }
    }))
}
