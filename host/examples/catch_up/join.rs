//! A gateway speaks first: it subscribes, grafts and publishes in one body. The other reads what is said, admits the notice, and answers a prune.

use super::notice::{said_with, sender, EDITION};
use super::rounds::Site;
use pradulins::{decode, Record, Rpc};
use std::error::Error;
use std::io::Write;

/// For how long a site that was pruned stays out of the mesh, in seconds.
const BACKOFF: u64 = 60;

/// What a neighbour says by a record, in words. Messages are not told here: they are admitted.
fn words(record: &Record) -> Option<String> {
    match *record {
        Record::SubOpts { subscribe: Some(true), topic_id: Some(topic) } => Some(format!("it joins {topic}")),
        Record::SubOpts { subscribe: Some(false), topic_id: Some(topic) } => Some(format!("it leaves {topic}")),
        Record::Graft { topic_id: Some(topic) } => Some(format!("it grafts {topic}")),
        Record::Prune { topic_id: Some(topic), backoff: Some(seconds) } => Some(format!("it prunes {topic} for {seconds} seconds")),
        Record::PeerInfo { peer_id: Some(id), .. } if id == sender("east") => Some("east is a peer to turn to".to_string()),
        _ => None,
    }
}

/// One site says something to another; what the other understands.
fn told(from: &Site, to: &mut Site, body: &[u8], out: &mut dyn Write) -> Result<(), Box<dyn Error>> {
    to.receive(body);
    let body = to.body()?;
    let said: Vec<String> = decode(EDITION, &body)?.records.iter().filter_map(words).collect();
    writeln!(out, "  {} hears of {}, in {} bytes: {}", to.name, from.name, body.len(), said.join(", "))?;
    let new = to.admit_all(&body)?;
    if new > 0 {
        writeln!(out, "  {} admits what it published: {new} new", to.name)?;
    }
    Ok(())
}

/// The story of the beginning.
pub fn run(site: &mut Site, other: &mut Site, topic: &str, out: &mut dyn Write) -> Result<(), Box<dyn Error>> {
    writeln!(out, "{} joins {topic} and publishes", site.name)?;
    let body = said_with(Rpc::new().subscribe(topic).graft(topic), site.name, 0, topic, b"study 0")?;
    site.admit_all(&body)?;
    told(site, other, &body, out)?;

    // The mesh of the other is full: it says so, and whom to turn to.
    let east = sender("east");
    let answer = Rpc::new().prune(topic, Some(BACKOFF), &[&east]).write()?;
    told(other, site, &answer, out)
}
