//! A clock for a host: the wall clock once, and then what the monotonic clock adds.

use crate::Gateway;
use std::fmt;
use std::time::{Duration, Instant, SystemTime, UNIX_EPOCH};

/// The readings to pass to a [`Gateway`], in milliseconds. They never fall, and they do not jump with the wall clock. They are UTC where the wall
/// clock was right when this one was made, and the machine did not sleep since.
///
/// A wall clock steps: it is set by a person or by another machine, and a gateway takes that at its word. A reading before the gateway's clock is
/// refused ([`Refusal::ClockBack`](crate::Refusal::ClockBack), 31) until the wall clock has caught up. A reading that is `ttl` or more after the last
/// one empties the list of seen ids, as the rules say; old notices are then new again, and each true reading after it is refused.
///
/// So this clock looks at the wall clock once, when it is made, and from then on adds what [`Instant`] says, which never steps. After a restart it
/// goes on from the saved gateway's clock, where the wall clock is behind it, as on a machine that starts at 0 at each boot.
///
#[cfg_attr(not(no_archive), doc = "```")]
#[cfg_attr(no_archive, doc = "```no_run")]
/// # use pradulins::{Clock, Gateway, Settings};
/// let mut gateway = Gateway::start(Settings { ttl: 3_600_000, max_seen: 256, history_len: 4, max_messages: 64, allow_unsigned: false, skip_groups: false })?;
/// let clock = Clock::after(&gateway);
/// gateway.heartbeat(clock.now())?;
/// gateway.heartbeat(clock.now())?;
/// # Ok::<(), pradulins::Refusal>(())
/// ```
///
/// [`Instant`] does not run while the machine sleeps. The clock is late then, which keeps ids longer and refuses nothing.
///
/// Use one clock for each gateway, as long as the program runs: a second one that was made after the wall clock stepped may be behind the first. A
/// `ttl` is in milliseconds with it.
#[derive(Clone, Copy)]
pub struct Clock(Running<Machine>);

impl Clock {
    /// A clock that starts at the wall clock. One before 1970 counts as 0.
    ///
    /// For a gateway that is new. [`Clock::after`] is for one that was loaded, and right for both.
    pub fn start() -> Clock {
        Clock(Running::new(Machine, 0))
    }

    /// A clock that starts at the wall clock or at the gateway's, whichever is later.
    pub fn after(gateway: &Gateway) -> Clock {
        Clock(Running::new(Machine, gateway.clock()))
    }

    /// A clock that starts at this reading, with the wall clock left aside.
    ///
    /// `Clock::at(gateway.clock())` is for a loaded gateway whose stop was short, where the wall clock jumped ahead meanwhile, or was behind when the
    /// state was saved: the gateway forgets nothing, and goes on as if there had been no stop. A reading before the gateway's clock is refused (31).
    pub fn at(reading: u64) -> Clock {
        Clock(Running::at(Machine, reading))
    }

    /// The reading now, in milliseconds. It stops at 2^64−1.
    pub fn now(&self) -> u64 {
        self.0.now()
    }

    /// By how much a reading now is after the gateway's clock; 0 where it is not.
    ///
    /// From `ttl` on, the next admit or heartbeat empties the list of seen ids. Ask for it after loading a saved gateway: if it is `ttl` or more
    /// after a short stop, the wall clock is wrong (or was, when the state was saved), and a person should look before a call is made. The cure is
    /// then [`Clock::at`] with the gateway's own clock. Of a gateway that was just started it says nothing: that one has seen nothing, and its clock
    /// is 0.
    pub fn ahead_of(&self, gateway: &Gateway) -> u64 {
        self.now().saturating_sub(gateway.clock())
    }
}

impl fmt::Debug for Clock {
    fn fmt(&self, f: &mut fmt::Formatter<'_>) -> fmt::Result {
        f.debug_struct("Clock").field("now", &self.now()).finish()
    }
}

/// A wall clock and a monotonic one.
trait Sources {
    /// A moment of the monotonic clock.
    type Mark: Copy;

    /// The wall clock, in UTC milliseconds.
    fn wall(&self) -> u64;

    /// The moment now.
    fn mark(&self) -> Self::Mark;

    /// How long ago a moment was.
    fn since(&self, mark: Self::Mark) -> Duration;
}

/// A clock over any sources.
#[derive(Clone, Copy)]
struct Running<S: Sources> {
    sources: S,
    first: u64,
    mark: S::Mark,
}

impl<S: Sources> Running<S> {
    /// It starts at the wall clock, or at this reading if it is later.
    fn new(sources: S, least: u64) -> Running<S> {
        let first = sources.wall().max(least);
        Running::at(sources, first)
    }

    /// It starts at this reading.
    fn at(sources: S, first: u64) -> Running<S> {
        let mark = sources.mark();
        Running { sources, first, mark }
    }

    fn now(&self) -> u64 {
        self.first.saturating_add(millis(self.sources.since(self.mark)))
    }
}

/// Whole milliseconds.
fn millis(time: Duration) -> u64 {
    u64::try_from(time.as_millis()).unwrap_or(u64::MAX)
}

/// UTC milliseconds; 0 before 1970.
fn utc(time: SystemTime) -> u64 {
    time.duration_since(UNIX_EPOCH).map_or(0, millis)
}

/// The machine's own clocks.
#[derive(Clone, Copy)]
struct Machine;

impl Sources for Machine {
    type Mark = Instant;

    fn wall(&self) -> u64 {
        utc(SystemTime::now())
    }

    fn mark(&self) -> Instant {
        Instant::now()
    }

    fn since(&self, mark: Instant) -> Duration {
        mark.elapsed()
    }
}

#[cfg(test)]
mod tests {
    use super::*;
    use std::cell::Cell;

    const MINUTE: u64 = 60_000;
    const HOUR: u64 = 60 * MINUTE;

    /// Clocks that a test sets.
    struct Set {
        wall: Cell<u64>,
        steady: Cell<Duration>,
    }

    impl Set {
        fn at(wall: u64) -> Set {
            Set { wall: Cell::new(wall), steady: Cell::new(Duration::from_secs(77)) }
        }

        /// Time passes; both clocks see it.
        fn pass(&self, millis: u64) {
            self.wall.set(self.wall.get() + millis);
            self.steady.set(self.steady.get() + Duration::from_millis(millis));
        }

        /// Somebody sets the wall clock.
        fn step(&self, by: i64) {
            self.wall.set(self.wall.get().saturating_add_signed(by));
        }
    }

    impl Sources for &Set {
        type Mark = Duration;

        fn wall(&self) -> u64 {
            self.wall.get()
        }

        fn mark(&self) -> Duration {
            self.steady.get()
        }

        fn since(&self, mark: Duration) -> Duration {
            self.steady.get() - mark
        }
    }

    #[test]
    fn the_wall_clock_is_read_once() {
        let set = Set::at(5 * HOUR);
        let clock = Running::new(&set, 0);
        assert_eq!(clock.now(), 5 * HOUR);
        set.pass(3);
        assert_eq!(clock.now(), 5 * HOUR + 3);
        set.step(-(HOUR as i64));
        assert_eq!(clock.now(), 5 * HOUR + 3);
        set.step(2 * HOUR as i64);
        assert_eq!(clock.now(), 5 * HOUR + 3);
        set.pass(4);
        assert_eq!(clock.now(), 5 * HOUR + 7);
    }

    #[test]
    fn it_starts_at_the_later() {
        let set = Set::at(100);
        assert_eq!(Running::new(&set, 99).now(), 100);
        assert_eq!(Running::new(&set, 101).now(), 101);
    }

    #[test]
    fn it_starts_where_the_host_says() {
        let set = Set::at(5 * HOUR);
        let clock = Running::at(&set, 7);
        assert_eq!(clock.now(), 7);
        set.step(HOUR as i64);
        set.pass(3);
        assert_eq!(clock.now(), 10);
        assert!((7..7 + HOUR).contains(&Clock::at(7).now()));
        assert_eq!(Clock::at(u64::MAX).now(), u64::MAX);
    }

    #[test]
    fn it_stops_at_the_end() {
        let set = Set::at(u64::MAX - 1);
        let clock = Running::new(&set, 0);
        set.steady.set(Duration::MAX);
        assert_eq!(clock.now(), u64::MAX);
        assert_eq!(millis(Duration::MAX), u64::MAX);
    }

    #[test]
    fn before_1970_counts_as_0() {
        assert_eq!(utc(UNIX_EPOCH - Duration::from_secs(1)), 0);
        assert_eq!(utc(UNIX_EPOCH), 0);
        assert_eq!(utc(UNIX_EPOCH + Duration::from_micros(1999)), 1);
    }

    #[test]
    fn the_machines_own() {
        let clock = Clock::start();
        let wall = utc(SystemTime::now());
        let (first, second) = (clock.now(), { clock }.now());
        assert!(first <= second);
        assert!(first.abs_diff(wall) < HOUR, "{first}, and the wall clock {wall}");
        assert!(format!("{clock:?}").starts_with("Clock { now: "));
    }

    #[cfg(not(no_archive))]
    mod gateways {
        use super::*;
        use crate::{body_of, Admitted, Edition, Refusal, Settings};

        /// Half an hour: less than the wall clock steps by.
        const SETTINGS: Settings =
            Settings { ttl: HOUR / 2, max_seen: 256, history_len: 4, max_messages: 4, allow_unsigned: false, skip_groups: false };
        const MORNING: u64 = 1_800_000_000_000;

        /// A body with one message.
        fn notice(seqno: u8) -> Vec<u8> {
            body_of(b'A', &[0x1a, 1, seqno, 0x22, 1, b't'])
        }

        /// What went wrong in a story.
        #[derive(Debug, Default, PartialEq, Eq)]
        struct Wrong {
            refused: usize,
            forgotten: usize,
            not_new: usize,
        }

        /// Three hours: every five minutes a new notice and a heartbeat, and all notices again of the 25 minutes before. The wall clock steps after
        /// some of them. The gateway is passed the reading that `read` gives.
        fn story(set: &Set, steps: &[(usize, i64)], read: impl Fn() -> u64) -> Wrong {
            let mut gateway = Gateway::start(SETTINGS).unwrap();
            let mut wrong = Wrong::default();
            for turn in 0..36 {
                match gateway.admit(Edition::V1_1, &notice(turn as u8 + 1), 0, true, read()) {
                    Ok(admitted) => wrong.not_new += usize::from(admitted != Admitted::New),
                    Err(Refusal::ClockBack { .. }) => wrong.refused += 1,
                    Err(refusal) => panic!("{refusal}"),
                }
                for (_, by) in steps.iter().filter(|(after, _)| *after == turn) {
                    set.step(*by);
                }
                wrong.refused += usize::from(gateway.heartbeat(read()).is_err());
                for old in turn.saturating_sub(5)..=turn {
                    match gateway.admit(Edition::V1_1, &notice(old as u8 + 1), 0, true, read()) {
                        Ok(admitted) => wrong.forgotten += usize::from(admitted != Admitted::Duplicate),
                        Err(_) => wrong.refused += 1,
                    }
                }
                set.pass(5 * MINUTE);
            }
            wrong
        }

        #[test]
        fn a_wall_clock_that_steps_changes_nothing() {
            let hour = HOUR as i64;
            let (mut refused, mut forgotten) = (0, 0);
            for first in [0, 1, 5, 6, 7, 12, 20, 34] {
                for steps in
                    [vec![(first, -hour)], vec![(first, hour)], vec![(first, -hour), (first + 1, hour)], vec![(first, hour), (first + 3, -hour)]]
                {
                    let set = Set::at(MORNING);
                    let clock = Running::new(&set, 0);
                    assert_eq!(story(&set, &steps, || clock.now()), Wrong::default(), "{steps:?}");

                    // A host that passes the wall clock itself: a step back refuses, a step forward forgets.
                    let set = Set::at(MORNING);
                    let wrong = story(&set, &steps, || set.wall.get());
                    assert!(if steps[0].1 < 0 { wrong.refused > 0 } else { wrong.forgotten > 0 }, "{steps:?}: {wrong:?}");
                    refused += wrong.refused;
                    forgotten += wrong.forgotten;
                }
            }
            assert!(refused > 100 && forgotten > 10, "{refused} {forgotten}");
        }

        #[test]
        fn without_steps_both_are_right() {
            let set = Set::at(MORNING);
            assert_eq!(story(&set, &[], || set.wall.get()), Wrong::default());
        }

        /// A gateway that was saved at a reading and loaded again.
        fn saved_at(reading: u64) -> Gateway {
            let mut gateway = Gateway::start(SETTINGS).unwrap();
            assert_eq!(gateway.admit(Edition::V1_1, &notice(1), 0, true, reading), Ok(Admitted::New));
            Gateway::load(&gateway.save()).unwrap()
        }

        #[test]
        fn a_gateway_ahead_of_the_wall_clock() {
            let far = utc(SystemTime::now()) + 1000 * HOUR;
            let mut gateway = saved_at(far);
            let clock = Clock::after(&gateway);
            assert!(clock.now() >= far && clock.ahead_of(&gateway) < HOUR / 2);
            assert_eq!(gateway.admit(Edition::V1_1, &notice(1), 0, true, clock.now()), Ok(Admitted::Duplicate));
            assert_eq!(gateway.admit(Edition::V1_1, &notice(2), 0, true, clock.now()), Ok(Admitted::New));
            let wall = utc(SystemTime::now());
            assert!(matches!(gateway.admit(Edition::V1_1, &notice(3), 0, true, wall), Err(Refusal::ClockBack { clock }) if clock >= far));
            assert_eq!(Clock::start().ahead_of(&gateway), 0);
        }

        #[test]
        fn a_machine_that_boots_at_0() {
            let mut gateway = saved_at(HOUR);
            let set = Set::at(0);
            let clock = Running::new(&set, gateway.clock());
            assert_eq!(gateway.admit(Edition::V1_1, &notice(1), 0, true, clock.now()), Ok(Admitted::Duplicate));
            set.pass(MINUTE);
            assert_eq!(gateway.admit(Edition::V1_1, &notice(2), 0, true, clock.now()), Ok(Admitted::New));
            assert_eq!(gateway.admit(Edition::V1_1, &notice(3), 0, true, set.wall.get()), Err(Refusal::ClockBack { clock: HOUR + MINUTE }));
        }

        #[test]
        fn a_wall_clock_that_jumped_while_it_stood() {
            // Half an hour of ttl; the wall clock is now an hour ahead of the state, and the stop was short.
            let saved = saved_at(utc(SystemTime::now()) - HOUR);
            let mut gateway = saved.clone();
            assert!(Clock::after(&gateway).ahead_of(&gateway) >= SETTINGS.ttl);
            let clock = Clock::at(gateway.clock());
            assert!(clock.ahead_of(&gateway) < SETTINGS.ttl);
            assert_eq!(gateway.admit(Edition::V1_1, &notice(1), 0, true, clock.now()), Ok(Admitted::Duplicate));
            assert_eq!(gateway.admit(Edition::V1_1, &notice(2), 0, true, clock.now()), Ok(Admitted::New));
            assert_eq!(gateway.heartbeat(clock.now()), Ok(()));
            assert_eq!(gateway.seen(), 2);
            // Before the gateway's clock it is refused.
            assert_eq!(saved.clone().heartbeat(Clock::at(0).now()), Err(Refusal::ClockBack { clock: saved.clock() }));
        }

        #[test]
        fn a_long_stop_is_told() {
            let mut gateway = saved_at(utc(SystemTime::now()) - HOUR);
            let clock = Clock::after(&gateway);
            assert!(clock.ahead_of(&gateway) >= SETTINGS.ttl);
            assert_eq!(gateway.admit(Edition::V1_1, &notice(1), 0, true, clock.now()), Ok(Admitted::New));
            assert!(clock.ahead_of(&gateway) < SETTINGS.ttl);
        }
    }
}
