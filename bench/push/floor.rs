//! What a push costs at the least: `floor FILE PUSHES BYTES` appends so many records of so many bytes to a new file, as the
//! log does it and with nothing else. Of each the body and the next closed commit byte are written and synced, then its
//! commit byte is opened and synced. It prints how many pushes came after the first, the seconds that they took,
//! and those of which only a tenth of the pushes took less.
use std::env::args;
use std::fs::File;
use std::io::{Error, Result};
use std::os::unix::fs::FileExt;
use std::time::Instant;

const CLOSED: u8 = 0;
const OPEN: u8 = 1;

/// Appends a record behind the closed commit byte at `gate`, and answers where the next one stands.
fn append(file: &File, gate: u64, body: &[u8]) -> Result<u64> {
    file.write_all_at(body, gate + 1)?;
    file.sync_data()?;
    file.write_all_at(&[OPEN], gate)?;
    file.sync_data()?;
    Ok(gate + body.len() as u64)
}

fn main() -> Result<()> {
    let words: Vec<String> = args().collect();
    let [_, path, pushes, bytes] = words.as_slice() else {
        return Err(Error::other("floor FILE PUSHES BYTES"));
    };
    let pushes: u64 = pushes.parse().map_err(Error::other)?;
    let bytes: usize = bytes.parse().map_err(Error::other)?;
    let mut body = vec![b'x'; bytes];
    if let Some(last) = body.last_mut() {
        *last = CLOSED;
    }
    let file = File::create_new(path)?;
    file.write_all_at(&[1, CLOSED], 0)?;
    let mut gate = append(&file, 1, &body)?;
    let mut taken = Vec::new();
    for _ in 1..pushes {
        let begun = Instant::now();
        gate = append(&file, gate, &body)?;
        taken.push(begun.elapsed().as_secs_f64());
    }
    taken.sort_by(f64::total_cmp);
    println!("{} {:.6} {:.6}", taken.len(), taken.iter().sum::<f64>(), taken[taken.len() / 10]);
    Ok(())
}
