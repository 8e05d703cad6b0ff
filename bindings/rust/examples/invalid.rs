//! Reads a configuration and inputs from standard input, each as its length in four bytes, least significant first, and then its bytes.
//! Writes for each input a status and the invalid file, or the reason in words, in the same form. Arguments are names of families.
use smith::{invalid, Config, Family};
use std::env;
use std::io::{self, Read, Write};

fn main() -> io::Result<()> {
    let mut given = Vec::new();
    io::stdin().read_to_end(&mut given)?;
    let mut rest = given.as_slice();
    let mut records = std::iter::from_fn(move || {
        let (length, tail) = rest.split_first_chunk::<4>()?;
        let (record, tail) = tail.split_at(u32::from_le_bytes(*length) as usize);
        rest = tail;
        Some(record)
    });
    let config = Config::from_json(String::from_utf8_lossy(records.next().unwrap_or_default()));
    let families: Result<Vec<Family>, String> = env::args().skip(1).map(|name| name.parse()).collect();
    let families = families.map_err(io::Error::other)?;
    let mut out = io::BufWriter::new(io::stdout().lock());
    for input in records {
        let (status, bytes) = match invalid(&config, &families, input) {
            Ok(wrong) => (0, wrong.file),
            Err(refused) => (refused.status, refused.words.into_bytes()),
        };
        out.write_all(&status.to_le_bytes())?;
        out.write_all(&(bytes.len() as u32).to_le_bytes())?;
        out.write_all(&bytes)?;
    }
    out.flush()
}
