//! A plain program that carries traces out in virtual time under a fixed limit or AIMD, with a heap of what is
//! pending, running counts, a tree of waiters for each class, and no history: the peer of the benchmark of
//! `simulate`.
use std::cmp::Reverse;
use std::collections::{BTreeMap, BinaryHeap};
use std::env;
use std::io::{self, Read, Write};

const LAST_MOMENT: u64 = 1 << 62;
const HOUR: u64 = 3_600_000_000_000;

/// What is done with a call. Of one moment, an ending comes first and an arrival last.
#[derive(Clone, Copy, PartialEq, Eq, PartialOrd, Ord)]
enum Kind {
    Ending,
    GivingUp,
    Arriving,
}

/// One thing that is done: the order is that of the fields.
#[derive(Clone, Copy, PartialEq, Eq, PartialOrd, Ord)]
struct Deed {
    moment: u64,
    kind: Kind,
    place: usize,
    number: u64,
    /// Of an ending: when its permit was given out, and how many were in flight with it.
    start: u64,
    inflight: u64,
}

struct Arrival {
    class: usize,
    bypass: bool,
    wait: bool,
    at: u64,
    duration: u64,
    outcome: Outcome,
}

#[derive(Clone, Copy)]
enum Outcome {
    Success,
    Ignored,
    Dropped,
}

struct Class {
    name: String,
    /// In thousandths of the limit.
    promised: u64,
    inflight: u64,
    /// The place of each waiter, by its number.
    waiters: BTreeMap<u64, usize>,
}

impl Class {
    fn new(name: &str, promised: u64) -> Class {
        Class { name: name.to_string(), promised, inflight: 0, waiters: BTreeMap::new() }
    }

    fn share(&self, limit: u64) -> u64 {
        if self.promised == 0 { 0 } else { (limit * self.promised).div_ceil(1000).max(1) }
    }
}

/// A limit that rises by one while half of it is in use, and falls by a ratio.
struct Aimd {
    lo: u64,
    hi: u64,
    ratio: u64,
    timeout: u64,
}

impl Aimd {
    fn next(&self, limit: u64, round_trip: u64, inflight: u64, dropped: bool) -> u64 {
        let next = if dropped || self.timeout < round_trip {
            limit * self.ratio / 1000
        } else if limit <= 2 * inflight {
            limit + 1
        } else {
            limit
        };
        next.clamp(self.lo, self.hi)
    }
}

/// The gate of a trace; `classes[0]` is the unknown one, which has no share.
struct Gate {
    limit: u64,
    aimd: Option<Aimd>,
    total: u64,
    next: u64,
    kept: u64,
    is_rolling: bool,
    room: usize,
    waiting: usize,
    promotes_all: bool,
    timeout: u64,
    classes: Vec<Class>,
    out: Vec<u8>,
}

impl Gate {
    fn new(limit: u64) -> Gate {
        Gate {
            limit,
            aimd: None,
            total: 0,
            next: 0,
            kept: 100_000,
            is_rolling: false,
            room: 100,
            waiting: 0,
            promotes_all: false,
            timeout: 1_000_000_000,
            classes: vec![Class::new("unknown", 0)],
            out: Vec::new(),
        }
    }

    /// Takes a setting of the trace.
    fn set(&mut self, words: &[&str]) {
        let number = |word: &str| word.parse::<u64>().unwrap();
        match words {
            ["limit", "fixed", limit] => self.limit = number(limit),
            ["limit", "aimd", lo, limit, hi, ratio, timeout] => {
                self.limit = number(limit);
                let (lo, hi, ratio, timeout) = (number(lo), number(hi), number(ratio), number(timeout));
                self.aimd = Some(Aimd { lo, hi, ratio, timeout });
            }
            ["promote", "newest"] => self.promotes_all = false,
            ["promote", "all"] => self.promotes_all = true,
            ["backlog", room] => self.room = room.parse().unwrap(),
            ["keep", kept] => self.kept = kept.parse().unwrap(),
            ["keep", kept, "rolling"] => (self.kept, self.is_rolling) = (kept.parse().unwrap(), true),
            ["timeout", timeout] => self.timeout = timeout.parse().unwrap(),
            ["class", name, percent] => self.classes.push(Class::new(name, 10 * number(percent))),
            ["share", name, promised] => self.classes.push(Class::new(name, number(promised))),
            _ => panic!("no line of this benchmark: {words:?}"),
        }
    }

    /// Writes one entry's line and returns its number.
    fn tell(&mut self, text: std::fmt::Arguments) -> u64 {
        let number = self.next;
        writeln!(self.out, "{number} {text}").unwrap();
        self.next += 1;
        number
    }

    fn has_room(&self, class: usize) -> bool {
        self.total < self.limit || self.classes[class].inflight < self.classes[class].share(self.limit)
    }

    /// Takes a place of a class, and says how many are in flight then.
    fn take_place(&mut self, class: usize) -> u64 {
        self.total += 1;
        self.classes[class].inflight += 1;
        self.total
    }

    /// What is left to do with a call that comes.
    fn arrive(&mut self, arrival: &Arrival, deed: Deed) -> Option<Deed> {
        if self.next >= self.kept && !self.is_rolling {
            self.out.extend_from_slice(b"- exhausted\n");
        } else if arrival.bypass {
            self.tell(format_args!("bypassed"));
        } else if self.has_room(arrival.class) {
            let inflight = self.take_place(arrival.class);
            let number = self.next;
            writeln!(self.out, "{number} admitted {} inflight {inflight}", self.classes[arrival.class].name).unwrap();
            self.next += 1;
            return Some(ending(arrival, deed.place, number, deed.moment, inflight));
        } else if !arrival.wait {
            self.tell(format_args!("refused full"));
        } else if self.waiting >= self.room {
            self.tell(format_args!("refused backlog"));
        } else {
            let number = self.tell(format_args!("waiting"));
            self.classes[arrival.class].waiters.insert(number, deed.place);
            self.waiting += 1;
            let moment = arrival.at.saturating_add(self.timeout).min(LAST_MOMENT);
            return Some(Deed { moment, kind: Kind::GivingUp, number, ..deed });
        }
        None
    }

    /// Ends a permit; who is promoted gets its own at once, and what is left to do is to end those.
    fn end(&mut self, arrivals: &[Arrival], deed: Deed, left: &mut Vec<Deed>) {
        let Arrival { class, outcome, .. } = arrivals[deed.place];
        self.total -= 1;
        self.classes[class].inflight -= 1;
        self.learn(deed, outcome);
        let promoted = self.promote(deed.moment, arrivals);
        self.tell(format_args!("ended promoted {}", promoted.len()));
        for Deed { number, inflight, .. } in &promoted {
            self.tell(format_args!("promoted {number} inflight {inflight}"));
        }
        for Deed { inflight, .. } in &promoted {
            self.tell(format_args!("granted inflight {inflight}"));
        }
        left.extend(promoted);
    }

    fn learn(&mut self, deed: Deed, outcome: Outcome) {
        let (Some(aimd), Outcome::Success | Outcome::Dropped) = (&self.aimd, outcome) else { return };
        let round_trip = (deed.moment - deed.start).clamp(1, HOUR);
        let dropped = matches!(outcome, Outcome::Dropped);
        self.limit = aimd.next(self.limit, round_trip, deed.inflight, dropped);
    }

    /// Promotes the newest waiter where it has room, or the newest of those that have room as long as one has;
    /// what is left to do is to end their permits.
    fn promote(&mut self, now: u64, arrivals: &[Arrival]) -> Vec<Deed> {
        let mut promoted = Vec::new();
        while self.waiting > 0 && (self.promotes_all || promoted.is_empty()) {
            let fits = |class: &usize| !self.promotes_all || self.has_room(*class);
            let newest = |class: &usize| self.classes[*class].waiters.last_key_value().map(|(number, _)| *number);
            let of = (0..self.classes.len()).filter(fits).max_by_key(newest);
            let Some(class) = of.filter(|class| self.has_room(*class)) else { break };
            let Some((number, place)) = self.classes[class].waiters.pop_last() else { break };
            self.waiting -= 1;
            let inflight = self.take_place(class);
            promoted.push(ending(&arrivals[place], place, number, now, inflight));
        }
        promoted
    }

    /// Who was promoted doesn't wait any longer.
    fn give_up(&mut self, class: usize, number: u64) {
        if self.classes[class].waiters.remove(&number).is_some() {
            self.waiting -= 1;
            self.tell(format_args!("timed out"));
        }
    }

    fn carry_out(&mut self, arrivals: &[Arrival]) {
        let coming = arrivals.iter().enumerate().map(|(place, arrival)| {
            let moment = arrival.at.min(LAST_MOMENT);
            Reverse(Deed { moment, kind: Kind::Arriving, place, number: 0, start: 0, inflight: 0 })
        });
        let mut pending: BinaryHeap<_> = coming.collect();
        let mut left = Vec::new();
        while let Some(Reverse(deed)) = pending.pop() {
            match deed.kind {
                Kind::Arriving => left.extend(self.arrive(&arrivals[deed.place], deed)),
                Kind::Ending => self.end(arrivals, deed, &mut left),
                Kind::GivingUp => self.give_up(arrivals[deed.place].class, deed.number),
            }
            pending.extend(left.drain(..).map(Reverse));
        }
    }
}

/// The ending of a permit that a call got at this moment.
fn ending(arrival: &Arrival, place: usize, number: u64, start: u64, inflight: u64) -> Deed {
    let moment = (start + arrival.duration).min(LAST_MOMENT);
    Deed { moment, kind: Kind::Ending, place, number, start, inflight }
}

/// The call of a line, or none where the line is a setting.
fn call_of(classes: &[Class], words: &[&str]) -> Option<Arrival> {
    let bypassed = |at: &str| {
        let at = at.parse().unwrap();
        Arrival { class: 0, bypass: true, wait: false, at, duration: 0, outcome: Outcome::Ignored }
    };
    let arrived = |class: &str, at: &str, duration: &str, outcome: &str, wait| {
        let outcome = match outcome {
            "success" => Outcome::Success,
            "ignored" => Outcome::Ignored,
            "dropped" => Outcome::Dropped,
            _ => panic!("no outcome: {outcome}"),
        };
        let class = classes.iter().position(|known| known.name == class).unwrap();
        Arrival { class, bypass: false, wait, at: at.parse().unwrap(), duration: duration.parse().unwrap(), outcome }
    };
    match words {
        ["bypass", at] => Some(bypassed(at)),
        ["arrive", class, at, duration, outcome] => Some(arrived(class, at, duration, outcome, false)),
        ["arrive", class, at, duration, outcome, "wait"] => Some(arrived(class, at, duration, outcome, true)),
        _ => None,
    }
}

fn main() {
    let limit = env::args().nth(1).map_or(20, |word| word.parse().unwrap());
    let mut trace = String::new();
    io::stdin().read_to_string(&mut trace).unwrap();
    let (mut gate, mut arrivals) = (Gate::new(limit), Vec::new());
    for line in trace.lines().filter(|line| !line.starts_with('#')) {
        let words: Vec<&str> = line.split(' ').filter(|word| !word.is_empty()).collect();
        match call_of(&gate.classes, &words) {
            Some(arrival) => arrivals.push(arrival),
            None if words.is_empty() => {}
            None => gate.set(&words),
        }
    }
    gate.carry_out(&arrivals);
    io::stdout().write_all(&gate.out).unwrap();
}
