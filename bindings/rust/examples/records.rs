//! Reads a configuration and inputs from standard input, each as its length in four bytes, least significant first, and then its bytes.
//! Writes for each input a status and the module, or the reason in words, in the same form. An argument is the file of a shape for exports.
use smith::{module, Config};
use std::io::{self, Read, Write};
use std::{env, fs};

fn main() -> io::Result<()> {
    let mut given = Vec::new();
    io::stdin().read_to_end(&mut given)?;
    let mut rest = given.as_slice();
    let mut records = std::iter::from_fn(move || {
        let (length, tail) = rest.split_first_chunk::<4>()?;
        let (record, tail) = tail.split_at(u32::from_le_bytes(*length) as usize);
        rest = tail;
        Some(record)
    });
    let mut config = Config::from_json(String::from_utf8_lossy(records.next().unwrap_or_default()));
    if let Some(name) = env::args_os().nth(1) {
        config = config.with_exports(fs::read(name)?);
    }
    let mut out = io::BufWriter::new(io::stdout().lock());
    for input in records {
        let (status, bytes) = match module(&config, input) {
            Ok(bytes) => (0, bytes),
            Err(refused) => (refused.status, refused.words.into_bytes()),
        };
        out.write_all(&status.to_le_bytes())?;
        out.write_all(&(bytes.len() as u32).to_le_bytes())?;
        out.write_all(&bytes)?;
    }
    out.flush()
}
