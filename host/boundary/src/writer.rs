//! A writer to be killed, and what is then loaded.

use pradulins::{Edition, Gateway, LoadError, Settings};
use std::error::Error;
use std::io::{ErrorKind, Write};

/// The largest state, so that writing it takes long.
const SETTINGS: Settings = Settings { ttl: u64::MAX, max_seen: 256, history_len: 16, max_messages: 64, allow_unsigned: false, skip_groups: false };

/// A body with one message, whose seqno is a number.
fn notice(number: u64) -> Vec<u8> {
    // Its sender is the peer id of an Ed25519 key of 32 equal bytes.
    let mut body = vec![0x12, 0x77, 0x0a, 0x26, 0, 0x24, 8, 1, 0x12, 0x20];
    body.extend([b'A'; 32]);
    body.extend([0x1a, 8]);
    body.extend(number.to_be_bytes());
    body.extend([0x22, 1, b't', 0x2a, 0x40]);
    body.extend([0; 64]);
    body
}

/// Admits a notice, saves the gateway to the file and prints its clock, over and over: the clock goes up by 1. It begins with the gateway of the
/// file, if there is one.
pub fn write(path: &str, out: &mut dyn Write) -> Result<(), Box<dyn Error>> {
    let mut gateway = match Gateway::load_from(path) {
        Err(LoadError::Read(why)) if why.kind() == ErrorKind::NotFound => Gateway::start(SETTINGS)?,
        loaded => loaded?,
    };
    loop {
        let now = gateway.clock() + 1;
        gateway.admit(Edition::V1_1, &notice(now), 0, true, now)?;
        gateway.save_to(path)?;
        writeln!(out, "{now}")?;
        out.flush()?;
    }
}

/// Loads the gateway of a file, and prints its clock and how many ids and messages it has.
pub fn load(path: &str, out: &mut dyn Write) -> Result<(), Box<dyn Error>> {
    let gateway = Gateway::load_from(path)?;
    writeln!(out, "{} {} {}", gateway.clock(), gateway.seen(), gateway.messages())?;
    Ok(())
}
