//! A plain program that answers scripts of one class under a fixed limit or one that is set by hand, with
//! running counts, a set of waiters and maps of permits, and no history: the peer of the replay benchmark.
use std::collections::{BTreeSet, HashMap};
use std::env;
use std::io::{self, Read, Write};

const KEPT: u64 = 100_000;

struct Limiter {
    limit: u64,
    /// The least and the greatest that it may be set to.
    settable: Option<(u64, u64)>,
    promotes_all: bool,
    total: u64,
    next: u64,
    open: HashMap<u64, u64>,
    room: usize,
    waiters: BTreeSet<u64>,
    granted: HashMap<u64, u64>,
    out: Vec<u8>,
}

impl Limiter {
    fn new(limit: u64) -> Limiter {
        Limiter {
            limit,
            settable: None,
            promotes_all: false,
            total: 0,
            next: 0,
            open: HashMap::new(),
            room: 100,
            waiters: BTreeSet::new(),
            granted: HashMap::new(),
            out: Vec::new(),
        }
    }

    /// Writes one entry's line and returns its number.
    fn tell(&mut self, text: std::fmt::Arguments) -> u64 {
        let number = self.next;
        writeln!(self.out, "{number} {text}").unwrap();
        self.next += 1;
        number
    }

    fn acquire(&mut self, now: u64, wait: bool) {
        if self.total < self.limit {
            self.total += 1;
            let inflight = self.total;
            let number = self.tell(format_args!("admitted unknown inflight {inflight}"));
            self.open.insert(number, now);
        } else if !wait {
            self.tell(format_args!("refused full"));
        } else if self.waiters.len() < self.room {
            let number = self.tell(format_args!("waiting"));
            self.waiters.insert(number);
        } else {
            self.tell(format_args!("refused backlog"));
        }
    }

    fn end(&mut self, number: u64) {
        if self.open.remove(&number).is_none() {
            writeln!(self.out, "- not open").unwrap();
            return;
        }
        self.total -= 1;
        let promoted = self.promote(if self.promotes_all { usize::MAX } else { 1 });
        self.tell(format_args!("ended promoted {}", promoted.len()));
        self.tell_promoted(&promoted);
    }

    /// Promotes so many waiters at most, the newest first, as long as there is room.
    fn promote(&mut self, most: usize) -> Vec<(u64, u64)> {
        let mut promoted = Vec::new();
        while promoted.len() < most && self.total < self.limit {
            let Some(waiter) = self.waiters.pop_last() else { break };
            self.total += 1;
            self.granted.insert(waiter, self.total);
            promoted.push((waiter, self.total));
        }
        promoted
    }

    fn tell_promoted(&mut self, promoted: &[(u64, u64)]) {
        for (waiter, inflight) in promoted {
            self.tell(format_args!("promoted {waiter} inflight {inflight}"));
        }
    }

    fn set(&mut self, limit: u64) {
        match self.settable {
            None => {
                self.tell(format_args!("refused not settable"));
            }
            Some((lo, hi)) if limit < lo || hi < limit => {
                self.tell(format_args!("refused out of range"));
            }
            Some(_) => {
                self.limit = limit;
                self.tell(format_args!("limit set"));
                let promoted = self.promote(if self.promotes_all { usize::MAX } else { 0 });
                self.tell_promoted(&promoted);
            }
        }
    }

    fn hand_out(&mut self, number: u64) -> bool {
        let Some(inflight) = self.granted.remove(&number) else { return false };
        self.tell(format_args!("granted inflight {inflight}"));
        self.open.insert(number, 0);
        true
    }

    fn claim(&mut self, number: u64) {
        if self.hand_out(number) {
            return;
        }
        let waits = self.waiters.contains(&number);
        self.tell(format_args!("{}", if waits { "still waiting" } else { "lost" }));
    }

    fn give_up(&mut self, number: u64) {
        if self.hand_out(number) {
            return;
        }
        let waited = self.waiters.remove(&number);
        self.tell(format_args!("{}", if waited { "timed out" } else { "lost" }));
    }

    fn look(&mut self) {
        let (limit, total, waiting, granted) = (self.limit, self.total, self.waiters.len(), self.granted.len());
        self.tell(format_args!(
            "seen limit {limit} total {total} waiting {waiting} granted {granted} inflight {total} share 0"
        ));
    }

    /// Past what is kept, endings are answered and givings up of what waits or lies granted.
    fn is_exhausted(&self, words: &[&str]) -> bool {
        self.next >= KEPT
            && match words {
                ["end", ..] => false,
                ["giveup", number] => {
                    let number = number.parse().unwrap();
                    !self.waiters.contains(&number) && !self.granted.contains_key(&number)
                }
                _ => true,
            }
    }

    fn answer(&mut self, words: &[&str]) {
        let number = |word: &str| word.parse::<u64>().unwrap();
        match words {
            _ if self.is_exhausted(words) => self.out.extend_from_slice(b"- exhausted\n"),
            ["limit", "settable", lo, limit, hi] => {
                (self.limit, self.settable) = (number(limit), Some((number(lo), number(hi))));
            }
            ["promote", rule] => self.promotes_all = *rule == "all",
            ["backlog", room] => self.room = room.parse().unwrap(),
            ["acquire", "unknown", now] => self.acquire(number(now), false),
            ["acquire", "unknown", now, "wait"] => self.acquire(number(now), true),
            ["end", ended, _, _] => self.end(number(ended)),
            ["claim", waiter] => self.claim(number(waiter)),
            ["giveup", waiter] => self.give_up(number(waiter)),
            ["set", limit, _] => self.set(number(limit)),
            ["look", "unknown"] => self.look(),
            _ => panic!("no line of this benchmark: {words:?}"),
        }
    }
}

fn main() {
    let limit = env::args().nth(1).map_or(20, |word| word.parse().unwrap());
    let mut script = String::new();
    io::stdin().read_to_string(&mut script).unwrap();
    let mut limiter = Limiter::new(limit);
    for line in script.lines() {
        let words: Vec<&str> = line.split(' ').filter(|word| !word.is_empty()).collect();
        limiter.answer(&words);
    }
    io::stdout().write_all(&limiter.out).unwrap();
}
