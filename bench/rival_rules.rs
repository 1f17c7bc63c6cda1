//! The rules of `rivals.rs`, with the defaults that they are published with.
//!
//! `gradient2` and `vegas` are those of Netflix' concurrency-limits: `Gradient2Limit` in a `WindowedLimit`, as its README
//! builds it, and `VegasLimit`, its limiters' default, which takes each answer by itself. `envoy` is the gradient
//! controller of Envoy's adaptive concurrency filter with the configuration of its document: the 90th percentile of
//! each 0.1 s, and the least round trip by 50 requests, three at a time, each minute.
use std::time::{Duration, Instant};

/// How a request ended.
#[derive(Clone, Copy, PartialEq, Eq)]
pub enum Ending {
    Answer,
    Drop,
    Nothing,
}

/// One request that has ended: when it began, the seconds that it took, and how many were in flight with it as it came.
#[derive(Clone, Copy)]
pub struct Sample {
    pub began: Instant,
    pub took: f64,
    pub in_flight: usize,
    pub ending: Ending,
}

/// What moves a limit by the requests that ended.
pub trait Rule: Send {
    fn limit(&self) -> usize;
    fn ended(&mut self, sample: Sample);
    /// What it does by the clock.
    fn tick(&mut self, _now: Instant) {}
}

/// The rule of this name.
pub fn rule_of(name: &str) -> Option<Box<dyn Rule>> {
    match name {
        "gradient2" => Some(Box::new(Gradient2::new())),
        "vegas" => Some(Box::new(Vegas::new())),
        "envoy" => Some(Box::new(Envoy::new())),
        _ => None,
    }
}

/// Numbers drawn evenly from 0 to 1, by xorshift.
struct Draw(u64);

impl Draw {
    fn next(&mut self) -> f64 {
        self.0 ^= self.0 << 13;
        self.0 ^= self.0 >> 7;
        self.0 ^= self.0 << 17;
        (self.0 >> 11) as f64 / (1u64 << 53) as f64
    }
}

/// A mean of the first ten samples, and of the last 600 or so from then on.
#[derive(Default)]
struct LongMean {
    value: f64,
    count: usize,
}

impl LongMean {
    const WARM_UP: usize = 10;
    const FACTOR: f64 = 2.0 / 601.0;

    fn add(&mut self, sample: f64) -> f64 {
        let factor = if self.count < Self::WARM_UP {
            self.count += 1;
            1.0 / self.count as f64
        } else {
            Self::FACTOR
        };
        self.value += factor * (sample - self.value);
        self.value
    }
}

/// The samples of a second.
#[derive(Default)]
struct Window {
    sum: f64,
    count: usize,
    in_flight: usize,
    ends: Option<Instant>,
}

impl Window {
    const LASTS: Duration = Duration::from_secs(1);
    const LEAST: usize = 10;
    const SHORTEST: f64 = 0.000_1;

    /// The mean and the most in flight, where this sample ends the window and it has enough of them.
    fn add(&mut self, sample: Sample) -> Option<(f64, usize)> {
        if sample.took < Self::SHORTEST {
            return None;
        }
        self.sum += sample.took;
        self.count += 1;
        self.in_flight = self.in_flight.max(sample.in_flight);
        let now = sample.began + Duration::from_secs_f64(sample.took);
        if self.ends.is_some_and(|ends| now <= ends) {
            return None;
        }
        let ended = std::mem::replace(self, Window { ends: Some(now + Self::LASTS), ..Window::default() });
        (ended.count >= Self::LEAST).then(|| (ended.sum / ended.count as f64, ended.in_flight))
    }
}

struct Gradient2 {
    limit: f64,
    long: LongMean,
    window: Window,
}

impl Gradient2 {
    const LEAST: f64 = 20.0;
    const MOST: f64 = 200.0;
    const QUEUE: f64 = 4.0;
    const TOLERANCE: f64 = 1.5;
    const SMOOTHING: f64 = 0.2;

    fn new() -> Gradient2 {
        Gradient2 { limit: 20.0, long: LongMean::default(), window: Window::default() }
    }
}

impl Rule for Gradient2 {
    fn limit(&self) -> usize {
        self.limit as usize
    }

    fn ended(&mut self, sample: Sample) {
        if sample.ending == Ending::Nothing {
            return;
        }
        let Some((short, in_flight)) = self.window.add(sample) else {
            return;
        };
        let long = self.long.add(short);
        if long / short > 2.0 {
            self.long.value *= 0.95;
        }
        if (in_flight as f64) < self.limit / 2.0 {
            return;
        }
        let gradient = (Self::TOLERANCE * long / short).clamp(0.5, 1.0);
        let next = self.limit * gradient + Self::QUEUE;
        let next = self.limit * (1.0 - Self::SMOOTHING) + next * Self::SMOOTHING;
        self.limit = next.clamp(Self::LEAST, Self::MOST);
    }
}

struct Vegas {
    limit: f64,
    base: f64,
    probes: usize,
    jitter: f64,
    draw: Draw,
}

impl Vegas {
    const MOST: f64 = 1_000.0;
    const PROBE: f64 = 30.0;

    fn new() -> Vegas {
        let mut draw = Draw(0x9e37_79b9_7f4a_7c15);
        Vegas { limit: 20.0, base: 0.0, probes: 0, jitter: Self::jitter(&mut draw), draw }
    }

    fn jitter(draw: &mut Draw) -> f64 {
        0.5 + draw.next() / 2.0
    }

    /// The limit behind a sample that is neither a probe nor a new base.
    fn moved(&self, sample: Sample) -> f64 {
        let step = self.limit.log10().floor().max(1.0);
        let (alpha, beta, threshold) = (3.0 * step, 6.0 * step, step);
        let queue = (self.limit * (1.0 - self.base / sample.took)).ceil();
        if sample.ending == Ending::Drop {
            self.limit - step
        } else if (sample.in_flight as f64) * 2.0 < self.limit {
            self.limit
        } else if queue <= threshold {
            self.limit + beta
        } else if queue < alpha {
            self.limit + step
        } else if queue > beta {
            self.limit - step
        } else {
            self.limit
        }
    }
}

impl Rule for Vegas {
    fn limit(&self) -> usize {
        self.limit as usize
    }

    fn ended(&mut self, sample: Sample) {
        if sample.ending == Ending::Nothing {
            return;
        }
        self.probes += 1;
        if self.jitter * Self::PROBE * self.limit <= self.probes as f64 {
            self.jitter = Self::jitter(&mut self.draw);
            (self.probes, self.base) = (0, sample.took);
        } else if self.base == 0.0 || sample.took < self.base {
            self.base = sample.took;
        } else {
            self.limit = self.moved(sample).clamp(1.0, Self::MOST);
        }
    }
}

struct Envoy {
    limit: usize,
    base: f64,
    taken: Vec<f64>,
    /// The limit that comes back behind a measurement of the base, while there is one.
    deferred: Option<usize>,
    since: Instant,
    next_base: Instant,
    next_limit: Instant,
    at_least: usize,
    draw: Draw,
}

impl Envoy {
    const LEAST: usize = 3;
    const MOST: f64 = 1_000.0;
    const PERCENTILE: f64 = 0.9;
    const BUFFER: f64 = 0.25;
    const UPDATE: Duration = Duration::from_millis(100);
    const REQUESTS: usize = 50;
    const INTERVAL: f64 = 60.0;
    const JITTER: f64 = 0.1;
    /// So often at the least limit in a row has the base measured again.
    const STUCK: usize = 5;

    fn new() -> Envoy {
        let now = Instant::now();
        Envoy {
            limit: Self::LEAST,
            base: 0.0,
            taken: Vec::new(),
            deferred: Some(Self::LEAST),
            since: now,
            next_base: now,
            next_limit: now,
            at_least: 0,
            draw: Draw(0x2545_f491_4f6c_dd1d),
        }
    }

    /// The percentile of what was taken, of which nothing is left.
    fn summed(&mut self) -> f64 {
        self.taken.sort_by(f64::total_cmp);
        let at = (self.taken.len() as f64 * Self::PERCENTILE) as usize;
        let found = self.taken.get(at.min(self.taken.len().saturating_sub(1))).copied().unwrap_or(0.0);
        self.taken.clear();
        found
    }

    fn measure_base(&mut self, now: Instant) {
        self.deferred = Some(self.limit);
        (self.limit, self.at_least, self.since) = (Self::LEAST, 0, now);
        self.taken.clear();
    }

    fn set(&mut self, limit: usize, now: Instant) {
        let stays = self.limit == Self::LEAST && limit == Self::LEAST;
        self.at_least = if stays { self.at_least + 1 } else { 0 };
        self.limit = limit;
        if self.at_least >= Self::STUCK {
            self.measure_base(now);
        }
    }
}

impl Rule for Envoy {
    fn limit(&self) -> usize {
        self.limit
    }

    fn ended(&mut self, sample: Sample) {
        if sample.began < self.since {
            return;
        }
        self.taken.push(sample.took);
        let Some(limit) = self.deferred.filter(|_| self.taken.len() >= Self::REQUESTS) else {
            return;
        };
        let now = Instant::now();
        self.base = self.summed();
        (self.deferred, self.limit) = (None, limit);
        let jitter = 1.0 + Self::JITTER * self.draw.next();
        self.next_base = now + Duration::from_secs_f64(Self::INTERVAL * jitter);
        self.next_limit = now + Self::UPDATE;
    }

    fn tick(&mut self, now: Instant) {
        if self.deferred.is_some() {
            return;
        }
        if now >= self.next_base {
            self.measure_base(now);
        } else if now >= self.next_limit {
            self.next_limit = now + Self::UPDATE;
            if self.taken.is_empty() {
                return;
            }
            let sampled = self.summed().max(0.000_001);
            let gradient = (self.base * (1.0 + Self::BUFFER) / sampled).clamp(0.5, 2.0);
            let limit = self.limit as f64 * gradient;
            let limit = (limit + limit.sqrt()).floor().clamp(Self::LEAST as f64, Self::MOST);
            self.set(limit as usize, now);
        }
    }
}
