//! The exports of a module in the binary format (WebAssembly Core Specification 3.0, section 5.5.10).

const EXPORTS: u8 = 7;

/// The bytes that are left to read.
struct Reader<'a>(&'a [u8]);

impl<'a> Reader<'a> {
    fn take(&mut self, length: usize) -> Option<&'a [u8]> {
        let (front, rest) = self.0.split_at_checked(length)?;
        self.0 = rest;
        Some(front)
    }

    fn byte(&mut self) -> Option<u8> {
        self.take(1).map(|bytes| bytes[0])
    }

    /// Reads an unsigned number of 32 bits in LEB128.
    fn number(&mut self) -> Option<u32> {
        let mut number = 0;
        for shift in (0..35).step_by(7) {
            let byte = self.byte()?;
            number |= u32::from(byte & 0x7f) << shift;
            if byte < 0x80 {
                return Some(number);
            }
        }
        None
    }

    /// Reads a number of bytes, and then these.
    fn bytes(&mut self) -> Option<&'a [u8]> {
        let length = self.number()?;
        self.take(length as usize)
    }
}

/// Returns the contents of the export section of `module`.
fn section(module: &[u8]) -> Option<&[u8]> {
    let mut reader = Reader(module.get(8..)?);
    loop {
        let id = reader.byte()?;
        let contents = reader.bytes()?;
        if id == EXPORTS {
            return Some(contents);
        }
    }
}

/// Returns the index of the last export of `module`, if it has one.
pub fn last_index(module: &[u8]) -> Option<u32> {
    let mut reader = Reader(section(module)?);
    let mut last = None;
    for _ in 0..reader.number()? {
        reader.bytes()?;
        reader.byte()?;
        last = Some(reader.number()?);
    }
    last
}
