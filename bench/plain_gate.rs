//! A plain gate that threads share, with running counts and no history: the peer of the gate's
//! benchmark. It admits by the same rule as the product, keeps the same shares, limit, numbers and
//! counters, and promotes the newest waiter at an ending, or all who have room.
//!
//! Its words are those of the product's side, `gate/src/main.rt.in`, and two more: where the first is above 0
//! it keeps a history of so many entries, and begins it anew where they are full: each call's event and reply
//! go into a list whose room is reserved, and the caller gets a receipt of them. Where the second is 1 it has an
//! atomic word beside its lock: each call raises it to the next number under the lock, and its caller reads it
//! before that and after. It writes the nanoseconds that the pairs, the givings up or the endings took, then
//! what was done.
use std::collections::BTreeMap;
use std::env;
use std::hint::black_box;
use std::sync::atomic::{AtomicU64, Ordering};
use std::sync::{Condvar, Mutex};
use std::thread;
use std::time::{Duration, Instant};

const LAST_MOMENT: u64 = 1 << 62;
const UNKNOWN_PLACE: usize = 4;
const ROOM: usize = 10_000;
const SHARE: u32 = 3_000;
const AT_A_TIME: u32 = 100;

/// What a history keeps of a call: what was asked, and what it was answered.
#[derive(Clone, Copy)]
#[allow(dead_code)]
enum Event {
    Acquire { part: Part, bypass: bool, wait: bool, now: u64 },
    End { permit: Permit, outcome: Outcome, now: u64 },
    GiveUp { number: u64 },
}

#[derive(Clone, Copy)]
#[allow(dead_code)]
enum Told {
    Admitted { inflight: u32 },
    Full,
    BacklogFull,
    Waiting,
    Ended { promoted: u32 },
    TimedOut,
    Lost,
    Granted { part: Part, start: u64, inflight: u32 },
    Seen { limit: u32, total: u32, waiting: u32, granted: u32, inflight: u32, share: u32 },
}

#[derive(Clone, Copy)]
#[allow(dead_code)]
enum Entry {
    Call { event: Event, told: Told },
    Promotion { waiter: u64, part: Part, start: u64, inflight: u32 },
}

#[allow(dead_code)]
struct Receipt {
    number: u64,
    event: Event,
    told: Told,
}

#[derive(Clone, Copy)]
enum Part {
    Known(u8),
    Unknown,
}

/// The known classes, as the percentage of the limit that each is promised.
struct Table(Vec<u32>);

impl Table {
    fn place(&self, part: Part) -> usize {
        match part {
            Part::Known(row) if usize::from(row) < self.0.len() => usize::from(row),
            _ => UNKNOWN_PLACE,
        }
    }

    fn share(&self, place: usize, limit: u32) -> u32 {
        self.0.get(place).map_or(0, |percent| (limit * percent).div_ceil(100).max(1))
    }
}

/// A limit that rises by one while half of it is in use, and falls by a ratio.
struct Aimd {
    lo: u32,
    limit: u32,
    hi: u32,
    ratio: u32,
    timeout: u64,
}

impl Aimd {
    fn on_sample(&mut self, start: u64, now: u64, inflight: u32, dropped: bool) {
        let round_trip = now.saturating_sub(start).max(1);
        let next = if dropped || self.timeout < round_trip {
            self.limit * self.ratio / 1000
        } else if u64::from(self.limit) <= 2 * u64::from(inflight) {
            self.limit + 1
        } else {
            self.limit
        };
        self.limit = next.clamp(self.lo, self.hi);
    }
}

#[derive(Clone, Copy)]
#[allow(dead_code)]
enum Outcome {
    Success,
    Ignored,
    Dropped,
}

/// A permit that is in flight, or lies granted.
#[derive(Clone, Copy)]
#[allow(dead_code)]
struct Permit {
    number: u64,
    part: Part,
    start: u64,
    inflight: u32,
}

enum Reply {
    Admitted(Permit),
    Full,
    BacklogFull,
    Waiting(u64),
}

#[derive(Clone, Copy, Default)]
struct Counters {
    admitted: u64,
    full: u64,
    backlog_full: u64,
    waiting: u64,
    promoted: u64,
    success: u64,
    ignored: u64,
    dropped: u64,
    timed_out: u64,
}

struct Limiter {
    table: Table,
    aimd: Aimd,
    inflight: [u32; 5],
    total: u32,
    /// The waiters of each place.
    waiters: [BTreeMap<u64, Part>; 5],
    waiting: usize,
    promotes_all: bool,
    granted: Vec<Permit>,
    next: u64,
    counters: Counters,
    history: Option<Vec<Entry>>,
    kept: usize,
}

impl Limiter {
    /// Keeps a call in the history, and makes its receipt.
    fn keep(&mut self, number: u64, event: Event, told: Told) -> Option<Receipt> {
        let entries = self.history.as_mut()?;
        if entries.len() >= self.kept {
            entries.clear();
        }
        entries.push(Entry::Call { event, told });
        Some(Receipt { number, event, told })
    }

    fn has_room(&self, place: usize) -> bool {
        let limit = self.aimd.limit;
        self.total < limit || self.inflight[place] < self.table.share(place, limit)
    }

    /// One more in flight at a place, and the total with it.
    fn enter(&mut self, place: usize) -> u32 {
        self.inflight[place] += 1;
        self.total += 1;
        self.total
    }

    /// The number of the next entry.
    fn number(&mut self) -> u64 {
        self.next += 1;
        self.next - 1
    }

    fn acquire(&mut self, part: Part, wait: bool, now: u64) -> Reply {
        let number = self.number();
        let place = self.table.place(part);
        if self.has_room(place) {
            self.counters.admitted += 1;
            let inflight = self.enter(place);
            let start = now.min(LAST_MOMENT);
            return Reply::Admitted(Permit { number, part, start, inflight });
        }
        if !wait {
            self.counters.full += 1;
            return Reply::Full;
        }
        if self.waiting == ROOM {
            self.counters.backlog_full += 1;
            return Reply::BacklogFull;
        }
        self.counters.waiting += 1;
        self.waiters[place].insert(number, part);
        self.waiting += 1;
        Reply::Waiting(number)
    }

    /// Ends a permit, and says how many waiters were promoted by it.
    fn end(&mut self, permit: Permit, outcome: Outcome, now: u64) -> u32 {
        self.number();
        self.inflight[self.table.place(permit.part)] -= 1;
        self.total -= 1;
        match outcome {
            Outcome::Success => self.counters.success += 1,
            Outcome::Ignored => self.counters.ignored += 1,
            Outcome::Dropped => self.counters.dropped += 1,
        }
        if !matches!(outcome, Outcome::Ignored) {
            let dropped = matches!(outcome, Outcome::Dropped);
            self.aimd.on_sample(permit.start, now, permit.inflight, dropped);
        }
        let most = if self.promotes_all { u32::MAX } else { 1 };
        let mut promoted = 0;
        while self.waiting > 0 && promoted < most && self.promote(now.min(LAST_MOMENT)) == 1 {
            promoted += 1;
        }
        promoted
    }

    /// Promotes the newest waiter where it has room, or the newest of those that have.
    fn promote(&mut self, start: u64) -> u32 {
        let looked_at = |place: &usize| !self.promotes_all || self.has_room(*place);
        let newest = |place: &usize| self.waiters[*place].last_key_value().map(|(waiter, _)| *waiter);
        let Some(place) = (0..5).filter(looked_at).max_by_key(newest) else { return 0 };
        if !self.has_room(place) {
            return 0;
        }
        let Some((waiter, part)) = self.waiters[place].pop_last() else { return 0 };
        self.waiting -= 1;
        self.number();
        let inflight = self.enter(place);
        self.granted.push(Permit { number: waiter, part, start, inflight });
        if let Some(entries) = &mut self.history {
            entries.push(Entry::Promotion { waiter, part, start, inflight });
        }
        self.counters.promoted += 1;
        1
    }

    /// Whether a waiter gave up that still waited.
    fn give_up(&mut self, waiter: u64) -> bool {
        self.number();
        let waited = self.waiters.iter_mut().any(|waiters| waiters.remove(&waiter).is_some());
        self.waiting -= usize::from(waited);
        self.counters.timed_out += u64::from(waited);
        waited
    }

    /// The permit that lies granted under a number.
    fn fetch(&mut self, waiter: u64) -> Option<Permit> {
        self.number();
        let place = self.granted.iter().position(|permit| permit.number == waiter)?;
        Some(self.granted.swap_remove(place))
    }
}

struct Gate {
    limiter: Mutex<Limiter>,
    /// The next number, where callers see it.
    word: Option<AtomicU64>,
    freed: Condvar,
}

/// Who calls: the last word that it read.
#[derive(Default)]
struct Pass {
    seen: u64,
}

impl Gate {
    /// A gate that keeps a history of so many entries, or none, and where asked has a word.
    fn new(kept: usize, promotes_all: bool, has_word: bool) -> Gate {
        let aimd = Aimd { lo: 1, limit: 10_000, hi: 10_000, ratio: 900, timeout: 3_600_000_000_000 };
        let limiter = Limiter {
            table: Table(vec![60, 30]),
            aimd,
            inflight: [0; 5],
            total: 0,
            waiters: Default::default(),
            waiting: 0,
            promotes_all,
            granted: Vec::with_capacity(20_000),
            next: 0,
            counters: Counters::default(),
            history: (kept > 0).then(|| Vec::with_capacity(kept + 1)),
            kept,
        };
        let word = has_word.then(|| AtomicU64::new(0));
        Gate { limiter: Mutex::new(limiter), word, freed: Condvar::new() }
    }

    /// Raises the word to the next number, under the lock.
    fn raise(&self, pass: &mut Pass, next: u64) {
        let Some(word) = &self.word else { return };
        let seen = word.load(Ordering::SeqCst);
        assert!(pass.seen <= seen);
        word.store(next, Ordering::SeqCst);
        pass.seen = word.load(Ordering::SeqCst);
    }

    fn acquire(&self, pass: &mut Pass, part: Part, wait: bool, now: u64) -> (Reply, Option<Receipt>) {
        let mut limiter = self.limiter.lock().unwrap();
        let number = limiter.next;
        let reply = limiter.acquire(part, wait, now);
        let told = match &reply {
            Reply::Admitted(permit) => Told::Admitted { inflight: permit.inflight },
            Reply::Full => Told::Full,
            Reply::BacklogFull => Told::BacklogFull,
            Reply::Waiting(_) => Told::Waiting,
        };
        let receipt = limiter.keep(number, Event::Acquire { part, bypass: false, wait, now }, told);
        self.raise(pass, limiter.next);
        (reply, receipt)
    }

    /// Wakes those who wait only where one was promoted: std's condition variable calls the system
    /// even where nobody waits.
    fn end(&self, pass: &mut Pass, permit: Permit, outcome: Outcome, now: u64) -> Option<Receipt> {
        let mut limiter = self.limiter.lock().unwrap();
        let number = limiter.next;
        let promoted = limiter.end(permit, outcome, now);
        let receipt = limiter.keep(number, Event::End { permit, outcome, now }, Told::Ended { promoted });
        self.raise(pass, limiter.next);
        drop(limiter);
        if promoted > 0 {
            self.freed.notify_all();
        }
        receipt
    }

    /// Whether a waiter gave up that still waited.
    fn give_up(&self, pass: &mut Pass, waiter: u64) -> (bool, Option<Receipt>) {
        let mut limiter = self.limiter.lock().unwrap();
        let number = limiter.next;
        let waited = limiter.give_up(waiter);
        let told = if waited { Told::TimedOut } else { Told::Lost };
        let receipt = limiter.keep(number, Event::GiveUp { number: waiter }, told);
        self.raise(pass, limiter.next);
        (waited, receipt)
    }
}

/// So many permits of a class.
fn hold(gate: &Gate, pass: &mut Pass, part: Part, held: u32) -> Vec<Permit> {
    (0..held).map(|_| admitted(gate.acquire(pass, part, false, 0).0)).collect()
}

/// So many callers of a class that wait.
fn queue(gate: &Gate, pass: &mut Pass, part: Part, at_a_time: u32) -> Vec<u64> {
    (0..at_a_time).map(|_| waiting(gate.acquire(pass, part, true, 0).0)).collect()
}

/// The number of a caller that waits.
fn waiting(reply: Reply) -> u64 {
    match reply {
        Reply::Waiting(number) => number,
        Reply::Admitted(_) | Reply::Full | Reply::BacklogFull => panic!("doesn't wait"),
    }
}

/// Draws another order.
fn shuffle(items: &mut [u64]) {
    let mut drawn: usize = 1;
    for place in 0..items.len() {
        drawn = drawn.wrapping_mul(1_103_515_245).wrapping_add(12_345);
        items.swap(place, (drawn >> 16) % items.len());
    }
}

/// How long so many givings up take, so many callers waiting at a time.
fn givings_up(gate: &Gate, pass: &mut Pass, times: u32, at_a_time: u32, drawn: bool) -> Duration {
    let mut took = Duration::ZERO;
    for _ in 0..times / at_a_time {
        let mut waiters = queue(gate, pass, Part::Unknown, at_a_time);
        if drawn {
            shuffle(&mut waiters);
        }
        let began = Instant::now();
        for waiter in waiters {
            let (waited, receipt) = gate.give_up(pass, waiter);
            assert!(waited);
            black_box(receipt);
        }
        took += began.elapsed();
    }
    took
}

fn admitted(reply: Reply) -> Permit {
    match reply {
        Reply::Admitted(permit) => permit,
        Reply::Waiting(number) => panic!("{number} waits"),
        Reply::Full | Reply::BacklogFull => panic!("refused"),
    }
}

/// Pairs of acquire and end, by one thread; moments stand still where there is no clock.
fn pairs(gate: &Gate, clock: Option<Instant>, part: Part, times: u32) {
    let now = || clock.map_or(0, |start| start.elapsed().as_nanos() as u64);
    let mut pass = Pass::default();
    for _ in 0..times {
        let (reply, receipt) = gate.acquire(&mut pass, part, false, now());
        black_box(receipt);
        black_box(gate.end(&mut pass, admitted(reply), Outcome::Success, now()));
    }
    black_box(pass.seen);
}

/// How long so many pairs of acquire and end take.
fn timed_pairs(gate: &Gate, threads: u32, times: u32, is_clocked: bool) -> Duration {
    let began = Instant::now();
    let clock = is_clocked.then_some(began);
    if threads == 1 {
        pairs(gate, clock, Part::Known(0), times);
    } else {
        thread::scope(|scope| {
            for thread in 0..threads {
                let part = Part::Known((thread % 2) as u8);
                scope.spawn(move || pairs(gate, clock, part, times / threads));
            }
        });
    }
    began.elapsed()
}

/// How long so many endings take, each of which promotes a waiter past so many others.
fn promotions(gate: &Gate, pass: &mut Pass, times: u32, others: u32) -> Duration {
    let batch = Part::Known(1);
    let mut permits = hold(gate, pass, batch, SHARE);
    let mut took = Duration::ZERO;
    for _ in 0..times / AT_A_TIME {
        let mut first = queue(gate, pass, batch, AT_A_TIME);
        let late = queue(gate, pass, Part::Unknown, others);
        let began = Instant::now();
        for permit in permits.drain(permits.len() - AT_A_TIME as usize..).rev() {
            black_box(gate.end(pass, permit, Outcome::Success, 0));
        }
        took += began.elapsed();
        while let Some(waiter) = first.pop() {
            permits.push(gate.limiter.lock().unwrap().fetch(waiter).expect("a permit"));
        }
        late.into_iter().for_each(|waiter| assert!(gate.give_up(pass, waiter).0));
    }
    for permit in permits.into_iter().rev() {
        gate.end(pass, permit, Outcome::Success, 0);
    }
    took
}

fn main() {
    let words: Vec<u32> = env::args().skip(1).map(|word| word.parse().unwrap()).collect();
    let [threads, held, times, fourth, fifth, waiting, promotes_all, kept, has_word] = words[..] else {
        panic!("words: threads held times and six more")
    };
    let gate = Gate::new(kept as usize, threads == 3 || promotes_all == 1, has_word == 1);
    let mut pass = Pass::default();
    let out = hold(&gate, &mut pass, Part::Unknown, held);
    let took = match threads {
        0 => givings_up(&gate, &mut pass, times, fourth, fifth == 1),
        3 => promotions(&gate, &mut pass, times, fourth),
        _ => {
            queue(&gate, &mut pass, Part::Unknown, waiting);
            timed_pairs(&gate, threads, times, fourth == 1)
        }
    };
    let Counters { admitted, promoted, success, timed_out, .. } = gate.limiter.lock().unwrap().counters;
    let took = took.as_nanos();
    println!("{took} admitted {admitted} promoted {promoted} success {success} timed out {timed_out}");
    drop(out);
}
