//! Harness: the root of the pubsub crate, here a program. `message.rs`,
//! `seen.rs` and `gossipsub/mcache.rs` beside it are the original files, put
//! there by build.sh; the rest is the oracle's driver, which lives in this crate
//! because much of what it calls is `pub(crate)`.
#![allow(dead_code)]

extern crate alloc;

mod driver;
mod dump;
mod gossipsub;
mod json;
mod message;
mod seen;
mod value;

use std::io::{BufRead, BufReader, BufWriter, Write};
use std::panic::{AssertUnwindSafe, catch_unwind};

fn main() {
    std::panic::set_hook(Box::new(|_| {}));
    let mut input = BufReader::with_capacity(1 << 16, std::io::stdin().lock());
    let mut output = BufWriter::with_capacity(1 << 16, std::io::stdout().lock());
    let mut state = driver::State::default();
    let mut line = Vec::new();
    loop {
        line.clear();
        match input.read_until(b'\n', &mut line) {
            Ok(0) | Err(_) => break,
            Ok(_) => {}
        }
        let text = String::from_utf8_lossy(&line);
        let text = text.trim_end_matches(['\n', '\r']);
        let answer = catch_unwind(AssertUnwindSafe(|| driver::answer(&mut state, text)))
            .unwrap_or_else(|_| String::from("panic"));
        if output.write_all(answer.as_bytes()).is_err() || output.write_all(b"\n").is_err() {
            return;
        }
        // One flush per batch: only when no further whole line is waiting.
        if !input.buffer().contains(&b'\n') && output.flush().is_err() {
            return;
        }
    }
    let _ = output.flush();
}
