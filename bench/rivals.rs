//! A bare proxy under the concurrency limits of others, by the rules and the defaults that they publish: what
//! `bench/adapts` measures beside the gateway. It has a thread for each connection and keeps none, answers 429 at once
//! where the limit is in use, lets nobody wait, and says each second what the limit is.
//!
//! rivals LISTEN BACKEND RULE
//!
//! The rules are those of `rival_rules.rs`. An answer of 429 or 503 is a drop to them, and what wasn't answered is
//! ignored, as concurrency-limits has it; Envoy takes each answer alike.
#[path = "rival_rules.rs"]
mod rival_rules;

use rival_rules::{rule_of, Ending, Rule, Sample};
use std::io::{Error, ErrorKind, Read, Result, Write};
use std::net::{SocketAddr, TcpListener, TcpStream};
use std::os::fd::AsRawFd;
use std::sync::{Arc, Mutex, MutexGuard};
use std::thread;
use std::time::{Duration, Instant};

const QUEUE: i32 = 4_096;
const PIECE: usize = 16_384;
const STACK: usize = 131_072;
const REFUSAL: &[u8] =
    b"HTTP/1.1 429 Too Many Requests\r\nContent-Length: 0\r\nConnection: close\r\n\r\n";
const BROKEN: &[u8] =
    b"HTTP/1.1 502 Bad Gateway\r\nContent-Length: 0\r\nConnection: close\r\n\r\n";
/// How long a client or the backend may take.
const PATIENCE: Duration = Duration::from_secs(60);

extern "C" {
    fn listen(socket: i32, backlog: i32) -> i32;
}

/// A rule and what is in flight under it.
struct Limiter {
    rule: Box<dyn Rule>,
    in_flight: usize,
}

/// All that the threads share.
struct Shop {
    backend: SocketAddr,
    limiter: Mutex<Limiter>,
}

impl Shop {
    fn limiter(&self) -> MutexGuard<'_, Limiter> {
        self.limiter.lock().expect("no thread ended in the lock")
    }

    /// How many are in flight with one more, where there is room for it.
    fn admit(&self) -> Option<usize> {
        let mut limiter = self.limiter();
        let has_room = limiter.in_flight < limiter.rule.limit();
        limiter.in_flight += usize::from(has_room);
        has_room.then_some(limiter.in_flight)
    }

    fn end(&self, sample: Sample) {
        let mut limiter = self.limiter();
        limiter.in_flight -= 1;
        limiter.rule.ended(sample);
    }

    /// Serves one client, whose request has no body.
    fn serve(&self, mut client: TcpStream) -> Result<()> {
        client.set_read_timeout(Some(PATIENCE))?;
        let (mut request, mut answer) = (Vec::new(), Vec::new());
        read_head(&mut client, &mut request)?;
        let Some(in_flight) = self.admit() else {
            return client.write_all(REFUSAL);
        };
        let began = Instant::now();
        let is_answered = self.pass_on(&request, &mut answer).is_ok();
        let ending = match (is_answered, status_of(&answer)) {
            (false, _) => Ending::Nothing,
            (true, b"429" | b"503") => Ending::Drop,
            _ => Ending::Answer,
        };
        self.end(Sample { began, took: began.elapsed().as_secs_f64(), in_flight, ending });
        client.write_all(if answer.is_empty() { BROKEN } else { &answer })
    }

    /// Asks the backend, over a connection of its own.
    fn pass_on(&self, request: &[u8], answer: &mut Vec<u8>) -> Result<()> {
        let mut behind = TcpStream::connect(self.backend)?;
        behind.set_read_timeout(Some(PATIENCE))?;
        behind.write_all(request)?;
        while read_piece(&mut behind, answer)? > 0 {}
        if answer.is_empty() {
            return Err(Error::from(ErrorKind::UnexpectedEof));
        }
        Ok(())
    }
}

fn status_of(answer: &[u8]) -> &[u8] {
    answer.get(9..12).unwrap_or_default()
}

fn read_head(client: &mut TcpStream, request: &mut Vec<u8>) -> Result<()> {
    while !request.ends_with(b"\r\n\r\n") {
        if read_piece(client, request)? == 0 {
            return Err(Error::from(ErrorKind::UnexpectedEof));
        }
    }
    Ok(())
}

/// Reads once, behind what was read before; how many bytes came.
fn read_piece(from: &mut impl Read, into: &mut Vec<u8>) -> Result<usize> {
    let before = into.len();
    into.resize(before + PIECE, 0);
    let read = from.read(&mut into[before..]);
    into.truncate(before + *read.as_ref().unwrap_or(&0));
    read
}

/// Has the rule do what it does by the clock, and tells its limit.
fn watch(shop: &Shop) {
    let mut told = Instant::now();
    loop {
        thread::sleep(Duration::from_millis(10));
        let now = Instant::now();
        let mut limiter = shop.limiter();
        limiter.rule.tick(now);
        if now.duration_since(told) >= Duration::from_secs(1) {
            told = now;
            eprintln!("report limit={}", limiter.rule.limit());
        }
    }
}

fn main() {
    let words: Vec<String> = std::env::args().skip(1).collect();
    let [listen_at, backend, name] = &words[..] else {
        eprintln!("usage: rivals LISTEN BACKEND RULE");
        std::process::exit(2);
    };
    let Some(rule) = rule_of(name) else {
        eprintln!("rivals: there is no rule {name}");
        std::process::exit(2);
    };
    let listener = TcpListener::bind(listen_at).expect("the address can be bound");
    // std's queue has 128 places.
    assert_eq!(unsafe { listen(listener.as_raw_fd(), QUEUE) }, 0);
    let backend = backend.parse().expect("an address of the backend");
    let limiter = Mutex::new(Limiter { rule, in_flight: 0 });
    let shop = Arc::new(Shop { backend, limiter });
    let watched = Arc::clone(&shop);
    thread::spawn(move || watch(&watched));
    eprintln!("listening");
    for client in listener.incoming().flatten() {
        let shop = Arc::clone(&shop);
        // A client that goes, or that there is no thread for, is no fault of this program's.
        let _ = thread::Builder::new().stack_size(STACK).spawn(move || shop.serve(client));
    }
}
