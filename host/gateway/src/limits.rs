//! Bounds on what a neighbour may cost: what each refusal weighs, buckets, bans. Times are given, so that tests need not wait.

use kombudeva::Refusal;
use std::collections::BTreeMap;
use std::net::IpAddr;
use std::time::{Duration, Instant};

/// Why a connection ends.
#[derive(Clone, Debug, PartialEq, Eq)]
pub enum End {
    /// The neighbour has gone, or the link broke.
    Gone(String),
    /// It cost too much, or was silent for too long.
    Dropped(&'static str),
    /// It gave what is provably wrong: its address is not listened to for a while.
    Banned(&'static str),
    /// The gateway's own doing.
    Renewed(&'static str),
}

impl End {
    pub fn words(&self) -> &str {
        match self {
            End::Gone(why) => why,
            End::Dropped(why) | End::Banned(why) | End::Renewed(why) => why,
        }
    }
}

/// What a refusal says of the neighbour whose message got it.
#[derive(Clone, Copy, Debug, PartialEq, Eq)]
pub enum Weight {
    /// Hashes or bytes that differ from what chains to the root.
    Lie,
    /// Against the rules, or about another file.
    Strike,
    /// Nothing to be learned from it.
    Idle,
    /// Two strings with one SHA-256 in a store of our own: our memory.
    OurMemory,
}

pub fn weight(refusal: Refusal) -> Weight {
    match refusal {
        Refusal::WrongPadding | Refusal::Differs => Weight::Lie,
        Refusal::Conflict => Weight::OurMemory,
        Refusal::NoAnchor => Weight::Idle,
        _ => Weight::Strike,
    }
}

/// A bucket of so many, filled up again at a rate.
#[derive(Clone, Debug)]
pub struct Bucket {
    level: f64,
    size: f64,
    a_second: f64,
    at: Instant,
}

impl Bucket {
    pub fn new(size: f64, a_second: f64, now: Instant) -> Bucket {
        Bucket { level: size, size, a_second, at: now }
    }

    fn fill(&mut self, now: Instant) {
        let since = now.saturating_duration_since(self.at).as_secs_f64();
        self.level = (self.level + since * self.a_second).min(self.size);
        self.at = now;
    }

    /// Takes one, if there is one.
    pub fn take(&mut self, now: Instant) -> bool {
        self.fill(now);
        let there = self.level >= 1.0;
        if there {
            self.level -= 1.0;
        }
        there
    }

    /// Takes so many, which may leave a debt, and says how long to wait till it is paid.
    pub fn spend(&mut self, amount: f64, now: Instant) -> Duration {
        self.fill(now);
        self.level -= amount;
        Duration::from_secs_f64((-self.level / self.a_second).max(0.0))
    }
}

/// What one connection has left.
#[derive(Clone, Debug)]
pub struct Patience {
    strikes: Bucket,
    idle: Bucket,
}

pub const STRIKES: f64 = 10.0;
pub const IDLE: f64 = 100.0;

impl Patience {
    pub fn new(now: Instant) -> Patience {
        Patience { strikes: Bucket::new(STRIKES, STRIKES / 60.0, now), idle: Bucket::new(IDLE, IDLE / 60.0, now) }
    }

    /// A message against the rules, or one that was not asked for.
    pub fn strike(&mut self, now: Instant) -> Result<(), End> {
        self.strikes.take(now).then_some(()).ok_or(End::Dropped("too many messages against the rules"))
    }

    /// A message that tells nothing.
    pub fn idle(&mut self, now: Instant) -> Result<(), End> {
        self.idle.take(now).then_some(()).ok_or(End::Dropped("too many messages that tell nothing"))
    }
}

/// Addresses that are not listened to.
#[derive(Default)]
pub struct Bans {
    bans: BTreeMap<IpAddr, Ban>,
}

#[derive(Clone, Copy)]
struct Ban {
    until: Instant,
    times: u32,
}

/// Addresses remembered: more than any rack has, few enough to be no load.
const MOST_BANS: usize = 4096;
const DAY: Duration = Duration::from_secs(86400);

impl Bans {
    /// Each ban is twice as long as the one before, up to a day.
    pub fn ban(&mut self, address: IpAddr, first: Duration, now: Instant) -> Duration {
        if self.bans.len() >= MOST_BANS && !self.bans.contains_key(&address) {
            self.bans.retain(|_, ban| now < ban.until);
            if self.bans.len() >= MOST_BANS {
                self.bans.pop_first();
            }
        }
        let ban = self.bans.entry(address).or_insert(Ban { until: now, times: 0 });
        let length = first.saturating_mul(1 << ban.times.min(16)).min(DAY);
        *ban = Ban { until: now + length, times: ban.times + 1 };
        length
    }

    /// How long an address is still banned.
    pub fn left(&self, address: IpAddr, now: Instant) -> Option<Duration> {
        let left = self.bans.get(&address)?.until.saturating_duration_since(now);
        (!left.is_zero()).then_some(left)
    }

    /// All that are banned now.
    pub fn all(&self, now: Instant) -> Vec<(IpAddr, Duration)> {
        self.bans.keys().filter_map(|address| Some((*address, self.left(*address, now)?))).collect()
    }
}

#[cfg(test)]
mod tests {
    use super::*;

    const MINUTE: Duration = Duration::from_secs(60);

    #[test]
    fn ten_strikes_a_minute() {
        let now = Instant::now();
        let mut patience = Patience::new(now);
        for _ in 0..10 {
            assert_eq!(patience.strike(now), Ok(()));
        }
        assert!(matches!(patience.strike(now), Err(End::Dropped(_))));
        assert_eq!(patience.strike(now + MINUTE), Ok(()));
    }

    #[test]
    fn a_hundred_idle_ones_a_minute() {
        let now = Instant::now();
        let mut patience = Patience::new(now);
        assert_eq!((0..1000).filter(|_| patience.idle(now).is_ok()).count(), 100);
        assert_eq!((0..1000).filter(|_| patience.idle(now + MINUTE / 2).is_ok()).count(), 50);
    }

    #[test]
    fn a_debt_is_waited_for() {
        let now = Instant::now();
        let mut bucket = Bucket::new(1000.0, 1000.0, now);
        assert_eq!(bucket.spend(1000.0, now), Duration::ZERO);
        assert_eq!(bucket.spend(500.0, now), Duration::from_millis(500));
        assert_eq!(bucket.spend(0.0, now + MINUTE), Duration::ZERO);
    }

    #[test]
    fn bans_double_up_to_a_day() {
        let (now, first) = (Instant::now(), Duration::from_secs(600));
        let address: IpAddr = [127, 0, 0, 9].into();
        let mut bans = Bans::default();
        assert_eq!(bans.left(address, now), None);
        let lengths: Vec<u64> = (0..9).map(|_| bans.ban(address, first, now).as_secs()).collect();
        assert_eq!(lengths, [600, 1200, 2400, 4800, 9600, 19200, 38400, 76800, 86400]);
        assert!(bans.left(address, now + DAY).is_none());
        for number in 0..=5000_u32 {
            bans.ban(IpAddr::from(number.to_be_bytes()), first, now);
        }
        assert!(bans.bans.len() <= MOST_BANS);
    }

    #[test]
    fn lies_weigh_most() {
        assert_eq!(weight(Refusal::Differs), Weight::Lie);
        assert_eq!(weight(Refusal::WrongPadding), Weight::Lie);
        assert_eq!(weight(Refusal::OtherRoot), Weight::Strike);
        assert_eq!(weight(Refusal::NoAnchor), Weight::Idle);
        assert_eq!(weight(Refusal::Conflict), Weight::OurMemory);
    }
}
