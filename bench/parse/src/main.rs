//! Parses the JSON of each line of standard input, behind the first space, and counts the lines that are JSON.
use std::io::BufRead;

fn main() {
    let mut parsed = 0u64;
    for line in std::io::stdin().lock().split(b'\n') {
        let line = line.expect("a line");
        let json = line.splitn(2, |b| *b == b' ').nth(1).unwrap_or(b"");
        if serde_json::from_slice::<serde_json::Value>(json).is_ok() {
            parsed += 1;
        }
    }
    println!("{parsed}");
}
