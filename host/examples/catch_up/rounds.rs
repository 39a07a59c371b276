//! The story, as a function, so that a program in C can call it too.

use super::frame::{put_frame, Frames};
use super::join;
use super::notice::{ids, notice, unwanted, verified, EDITION};
use pradulins::{messages, Admitted, Clock, Gateway, Settings};
use std::error::Error;
use std::io::Write;

const TOPIC: &str = "ct";
const WINDOWS: usize = 4;

/// An hour, in milliseconds; also how long an id is kept.
const HOUR: u64 = 3_600_000;

/// A gateway, and what came in for it.
pub struct Site {
    /// Its name.
    pub name: &'static str,
    gateway: Gateway,
    link: Frames,
    clock: Clock,
}

impl Site {
    fn new(name: &'static str, settings: Settings) -> Result<Site, Box<dyn Error>> {
        Ok(Site { name, gateway: Gateway::start(settings)?, link: Frames::default(), clock: Clock::start() })
    }

    /// A frame comes in, in pieces.
    pub fn receive(&mut self, body: &[u8]) {
        let mut wire = Vec::new();
        put_frame(&mut wire, body);
        for piece in wire.chunks(1000) {
            self.link.push(piece);
        }
    }

    /// The next body that came in whole.
    pub fn body(&mut self) -> Result<Vec<u8>, Box<dyn Error>> {
        Ok(self.link.pop()?.unwrap_or_default())
    }

    /// Admits every message of a body; how many were new.
    pub fn admit_all(&mut self, body: &[u8]) -> Result<usize, Box<dyn Error>> {
        let mut new = 0;
        for message in messages(EDITION, body)? {
            let admitted = self.gateway.admit(EDITION, body, message.index, verified(body, &message)?, self.clock.now())?;
            new += usize::from(admitted == Admitted::New);
        }
        Ok(new)
    }
}

/// What a gateway says of a notice at a reading: in words that do not tell the time.
fn told(gateway: &mut Gateway, body: &[u8], now: u64) -> Result<String, Box<dyn Error>> {
    let message = &messages(EDITION, body)?[0];
    Ok(match gateway.admit(EDITION, body, message.index, verified(body, message)?, now) {
        Ok(Admitted::New) => "new".to_string(),
        Ok(Admitted::Duplicate) => "a duplicate".to_string(),
        Err(refusal) => format!("refused {}", refusal.number()),
    })
}

/// A site publishes a notice; the other gets it, unless it is lost.
fn publish(site: &mut Site, other: &mut Site, seqno: u64, lost: bool) -> Result<(), Box<dyn Error>> {
    let data = vec![seqno as u8; 3900];
    let body = notice(site.name, seqno, TOPIC, &data)?;
    site.admit_all(&body)?;
    if !lost {
        other.receive(&body);
        let body = other.body()?;
        other.admit_all(&body)?;
    }
    Ok(())
}

/// One round, in which `taker` gets of `giver` what it lacks. Whether there was anything to get.
fn round(number: usize, giver: &mut Site, taker: &mut Site, out: &mut dyn Write) -> Result<bool, Box<dyn Error>> {
    let offer = giver.gateway.advertise(TOPIC.as_bytes(), WINDOWS)?;
    taker.receive(&offer);
    let offer = taker.body()?;
    let request = taker.gateway.ask(EDITION, &offer)?;
    writeln!(
        out,
        "round {number}: {} offers {} ids in {} bytes; {} asks for {} in {}",
        giver.name,
        ids(&offer)?.len(),
        offer.len(),
        taker.name,
        ids(&request)?.len(),
        request.len()
    )?;
    if request.is_empty() {
        return Ok(false);
    }
    giver.receive(&request);
    let request = giver.body()?;
    let reply = giver.gateway.serve(EDITION, &request)?;
    taker.receive(&reply.body);
    let body = taker.body()?;
    let new = taker.admit_all(&body)?;
    writeln!(out, "         {} serves {} messages in {} bytes, {} left; {new} are new", giver.name, reply.messages, reply.body.len(), reply.left)?;
    Ok(true)
}

/// Rounds until `taker` lacks nothing.
fn catch_up(giver: &mut Site, taker: &mut Site, out: &mut dyn Write) -> Result<(), Box<dyn Error>> {
    let mut number = 1;
    while round(number, giver, taker, out)? {
        number += 1;
    }
    Ok(())
}

/// Plays the story, and prints each round.
pub fn run(out: &mut dyn Write) -> Result<(), Box<dyn Error>> {
    let settings = Settings { ttl: HOUR, max_seen: 256, history_len: WINDOWS, max_messages: 64, allow_unsigned: false, skip_groups: false };
    let mut north = Site::new("north", settings)?;
    let mut south = Site::new("south", settings)?;

    join::run(&mut north, &mut south, TOPIC, out)?;

    // North publishes 40 notices, and the link loses three of four; south publishes 10 and loses one of five.
    for seqno in 1..=40 {
        publish(&mut north, &mut south, seqno, seqno % 4 != 0)?;
    }
    for seqno in 1..=10 {
        publish(&mut south, &mut north, seqno, seqno % 5 == 0)?;
    }
    writeln!(out, "north has {} messages, south {}", north.gateway.messages(), south.gateway.messages())?;

    catch_up(&mut north, &mut south, out)?;
    catch_up(&mut south, &mut north, out)?;
    let same = north.gateway.advertise(TOPIC.as_bytes(), WINDOWS)? == south.gateway.advertise(TOPIC.as_bytes(), WINDOWS)?;
    writeln!(
        out,
        "north has {} messages, south {}; they offer {}",
        north.gateway.messages(),
        south.gateway.messages(),
        if same { "the same bytes" } else { "other bytes" }
    )?;

    newcomer(&north, settings, out)?;
    clocks(&mut south, out)?;
    restart(south, out)
}

/// A third gateway asks for all that is offered. Before it is served, some of it comes in by another link, and it says that it does not want these notices any more:
/// they are left out of the reply, and do not count as left to be asked for again.
fn newcomer(giver: &Site, settings: Settings, out: &mut dyn Write) -> Result<(), Box<dyn Error>> {
    let gateway = Gateway::start(settings)?;
    let request = gateway.ask(EDITION, &giver.gateway.advertise(TOPIC.as_bytes(), WINDOWS)?)?;
    let wanted = ids(&request)?;
    let said = unwanted(&wanted[..20]);
    let (all, rest) = (giver.gateway.serve(EDITION, &request)?, giver.gateway.serve_without(EDITION, &request, &said)?);
    writeln!(out, "east asks {} for {} notices: it would serve {}, and leave {}", giver.name, wanted.len(), all.messages, all.left)?;
    writeln!(out, "  east does not want {} of them any more: {} serves {}, and leaves {}", ids(&said)?.len(), giver.name, rest.messages, rest.left)?;
    Ok(())
}

/// What a wall clock that steps by an hour would do. By the site's own clock, nothing: it does not look at the wall clock again. The machine's is not
/// stepped for this; the crate's tests do step one (src/clock.rs).
fn clocks(site: &mut Site, out: &mut dyn Write) -> Result<(), Box<dyn Error>> {
    let old = notice("north", 1, TOPIC, &[1; 3900])?;
    let (name, now) = (site.name, site.clock.now());
    writeln!(out, "if the wall clock stepped by an hour, the clock of {name} would not see it: it looked once, at start")?;
    writeln!(out, "  an old notice is {}", told(&mut site.gateway, &old, site.clock.now())?)?;
    writeln!(out, "  a notice of now is {}", told(&mut site.gateway, &notice("east", 1, TOPIC, b"")?, site.clock.now())?)?;

    // What a host would see that passes the wall clock itself: on copies, since the second one loses what it has seen.
    let (mut back, mut ahead) = (site.gateway.clone(), site.gateway.clone());
    writeln!(out, "a host that passes the wall clock itself would see it")?;
    writeln!(out, "  an hour back: a notice of now is {}", told(&mut back, &notice("east", 2, TOPIC, b"")?, now.saturating_sub(HOUR))?)?;
    writeln!(out, "  an hour ahead: the old notice is {}, though it was seen", told(&mut ahead, &old, now.saturating_add(HOUR))?)?;
    Ok(())
}

/// The program stops and starts again: the state is saved to a file and loaded.
fn restart(site: Site, out: &mut dyn Write) -> Result<(), Box<dyn Error>> {
    let file = std::env::temp_dir().join(format!("pradulins-catch-up-{}.state", std::process::id()));
    site.gateway.save_to(&file)?;
    let loaded = Gateway::load_from(&file);
    std::fs::remove_file(&file)?;
    let mut loaded = loaded?;

    // The clock goes on where the saved one stood. After a stop as short as this, a reading that is ttl later would mean a wrong wall clock.
    let clock = Clock::after(&loaded);
    if clock.ahead_of(&loaded) >= loaded.settings().ttl {
        return Err("the wall clock is ttl or more after the saved one: is it right?".into());
    }
    writeln!(out, "{} is saved and loaded: {} ids seen, {} messages", site.name, loaded.seen(), loaded.messages())?;
    let old = notice("north", 1, TOPIC, &[1; 3900])?;
    writeln!(out, "  an old notice is {}", told(&mut loaded, &old, clock.now())?)?;
    Ok(())
}
