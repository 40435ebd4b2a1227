//! Reads each line of a log as a `serde_json::Value` on one thread, drops it, and prints how many lines are JSON: what
//! ordinary Rust needs for no more than reading.

use std::fs::File;
use std::io::{self, BufRead, BufReader};

fn main() -> io::Result<()> {
    let Some(name) = std::env::args().nth(1) else {
        eprintln!("parsefloor LOG");
        std::process::exit(2);
    };
    let mut log = BufReader::with_capacity(1 << 20, File::open(name)?);
    let (mut line, mut read) = (Vec::new(), 0u64);
    while log.read_until(b'\n', &mut line)? > 0 {
        if serde_json::from_slice::<serde_json::Value>(&line).is_ok() {
            read += 1;
        }
        line.clear();
    }
    println!("{read}");
    Ok(())
}
