//! Reads inputs from standard input, each as its length in four bytes, least significant first, and then its bytes. Writes for each input
//! the module of the default configuration in the same form, or no bytes if there is none.
use arbitrary::{Arbitrary, Unstructured};
use std::io::{self, Read, Write};
use smith_drop_in::Module;

fn main() -> io::Result<()> {
    let mut given = Vec::new();
    io::stdin().read_to_end(&mut given)?;
    let mut rest = given.as_slice();
    let mut out = io::BufWriter::new(io::stdout().lock());
    while let Some((length, tail)) = rest.split_first_chunk::<4>() {
        let (input, tail) = tail.split_at(u32::from_le_bytes(*length) as usize);
        rest = tail;
        let bytes = Module::arbitrary_take_rest(Unstructured::new(input)).map_or_else(|_| Vec::new(), |module| module.to_bytes());
        out.write_all(&(bytes.len() as u32).to_le_bytes())?;
        out.write_all(&bytes)?;
    }
    out.flush()
}
