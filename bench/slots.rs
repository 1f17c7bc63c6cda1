//! A backend of so many slots: it serves so many requests at a time, each in so many milliseconds,
//! and the others wait for their turn. One thread does so over an epoll set, and keeps each
//! connection whose request doesn't ask for its end. `bench/exchanges.py` builds and runs it.
//!
//! slots LISTEN SLOTS MILLISECONDS
use std::collections::{HashMap, VecDeque};
use std::env;
use std::io::{Read, Write};
use std::net::{TcpListener, TcpStream};
use std::os::fd::{AsRawFd, RawFd};
use std::time::{Duration, Instant};

const ANSWER: &str = "HTTP/1.1 200 OK\r\nContent-Length: 13\r\n\r\nhello, world\n";
const CLOSING: &str = "connection: close\r\n";

/// How many clients may wait to be accepted, and how many events are taken at once.
const QUEUE: i32 = 4_096;
const EVENTS: usize = 256;

const READABLE: u32 = 0x1;
const ADD: i32 = 1;
const LISTENER: u64 = 0;

/// What Linux has as `struct epoll_event` on x86-64.
#[repr(C, packed)]
#[derive(Clone, Copy)]
struct Event {
    kinds: u32,
    data: u64,
}

extern "C" {
    fn listen(socket: i32, backlog: i32) -> i32;
    fn epoll_create1(flags: i32) -> i32;
    fn epoll_ctl(set: i32, what: i32, socket: i32, event: *mut Event) -> i32;
    fn epoll_wait(set: i32, events: *mut Event, most: i32, milliseconds: i32) -> i32;
}

/// A connection, and what was read of its next request.
struct Client {
    stream: TcpStream,
    text: Vec<u8>,
    is_closing: bool,
}

/// The clients by their numbers, which are never used again; those whose requests wait for a slot,
/// and those whose requests are served, with the moments when they are answered.
struct Backend {
    set: RawFd,
    listener: TcpListener,
    slots: usize,
    takes: Duration,
    clients: HashMap<u64, Client>,
    accepted: u64,
    waiting: VecDeque<u64>,
    served: VecDeque<(Instant, u64)>,
}

impl Backend {
    fn watch(&self, socket: RawFd, data: u64) {
        let mut event = Event { kinds: READABLE, data };
        assert_eq!(unsafe { epoll_ctl(self.set, ADD, socket, &mut event) }, 0);
    }

    fn accept(&mut self) {
        while let Ok((stream, _)) = self.listener.accept() {
            let _ = stream.set_nodelay(true);
            self.accepted += 1;
            self.watch(stream.as_raw_fd(), self.accepted);
            let client = Client { stream, text: Vec::new(), is_closing: false };
            self.clients.insert(self.accepted, client);
        }
    }

    /// Reads from a client, whose request waits once it is whole.
    fn read(&mut self, number: u64) {
        let Some(client) = self.clients.get_mut(&number) else { return };
        let mut piece = [0; 4_096];
        match client.stream.read(&mut piece) {
            Ok(0) | Err(_) => {
                self.clients.remove(&number);
            }
            Ok(read) => {
                client.text.extend_from_slice(&piece[..read]);
                if client.text.ends_with(b"\r\n\r\n") {
                    let head = String::from_utf8_lossy(&client.text).to_ascii_lowercase();
                    client.is_closing = head.contains(CLOSING);
                    client.text.clear();
                    self.waiting.push_back(number);
                }
            }
        }
    }

    /// Answers all whose time is over, and begins to serve as many as there are slots for.
    fn serve(&mut self) {
        let now = Instant::now();
        while self.served.front().is_some_and(|(at, _)| *at <= now) {
            let (_, number) = self.served.pop_front().expect("the first one");
            self.answer(number);
        }
        while self.served.len() < self.slots {
            let Some(number) = self.waiting.pop_front() else { break };
            self.served.push_back((now + self.takes, number));
        }
    }

    fn answer(&mut self, number: u64) {
        let Some(client) = self.clients.get_mut(&number) else { return };
        let closing = format!("\r\n{CLOSING}\r\n");
        let text = if client.is_closing {
            ANSWER.replacen("\r\n\r\n", &closing, 1)
        } else {
            ANSWER.into()
        };
        if client.stream.write_all(text.as_bytes()).is_err() || client.is_closing {
            self.clients.remove(&number);
        }
    }

    /// How many milliseconds it is until somebody is to be answered, rounded up; -1 where nobody
    /// is.
    fn pause(&self) -> i32 {
        self.served.front().map_or(-1, |(at, _)| {
            at.saturating_duration_since(Instant::now()).as_micros().div_ceil(1_000) as i32
        })
    }
}

fn word<T: std::str::FromStr>(at: usize, what: &str) -> T {
    let word = env::args().nth(at).unwrap_or_default();
    word.parse().unwrap_or_else(|_| panic!("{what} in place of {word:?}"))
}

fn main() {
    let address: String = word(1, "an address");
    let listener = TcpListener::bind(address).expect("the address is bound");
    listener.set_nonblocking(true).expect("a listener that doesn't block");
    unsafe { listen(listener.as_raw_fd(), QUEUE) };
    let mut backend = Backend {
        set: unsafe { epoll_create1(0) },
        listener,
        slots: word(2, "a number of slots"),
        takes: Duration::from_millis(word(3, "milliseconds")),
        clients: HashMap::new(),
        accepted: 0,
        waiting: VecDeque::new(),
        served: VecDeque::new(),
    };
    backend.watch(backend.listener.as_raw_fd(), LISTENER);
    let mut events = [Event { kinds: 0, data: 0 }; EVENTS];
    loop {
        let pause = backend.pause();
        let found = unsafe { epoll_wait(backend.set, events.as_mut_ptr(), EVENTS as i32, pause) };
        for event in &events[..found.max(0) as usize] {
            match event.data {
                LISTENER => backend.accept(),
                number => backend.read(number),
            }
        }
        backend.serve();
    }
}
