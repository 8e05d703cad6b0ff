//! Reads a configuration and files from standard input, each as its length in four bytes, least significant first, and then its bytes.
//! Writes for each file a status and what the file is, or the reason why it isn't judged, in words, in the same form.
use smith::{check, Config};
use std::io::{self, Read, Write};

fn main() -> io::Result<()> {
    let mut given = Vec::new();
    io::stdin().read_to_end(&mut given)?;
    let mut rest = given.as_slice();
    let mut records = std::iter::from_fn(move || {
        let (length, tail) = rest.split_first_chunk::<4>()?;
        let (record, tail) = tail.split_at(u32::from_le_bytes(*length) as usize);
        rest = tail;
        Some(record)
    });
    let config = Config::from_json(String::from_utf8_lossy(records.next().unwrap_or_default()));
    let mut out = io::BufWriter::new(io::stdout().lock());
    for file in records {
        let (status, words) = match check(&config, file) {
            Ok(verdict) => (0, verdict.words),
            Err(refused) => (refused.status, refused.words),
        };
        out.write_all(&status.to_le_bytes())?;
        out.write_all(&(words.len() as u32).to_le_bytes())?;
        out.write_all(words.as_bytes())?;
    }
    out.flush()
}
