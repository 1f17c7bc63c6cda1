//! A bare proxy that keeps its connections on both sides: the limit of the form that the gateway has
//! with kept clients, and no competitor. It checks nothing, limits nothing and keeps no history.
//! Clients that have sent nothing wait in one epoll set that all threads ask; the thread that one is
//! handed to reads its request up to the end of the head and what its Content-Length tells, asks the
//! backend over the connection that was kept last, and writes the answer back. `bench/proxy.py`
//! builds and runs it.
//!
//! bare_kept LISTEN BACKEND THREADS
use std::collections::HashMap;
use std::io::{Error, ErrorKind, Read, Result, Write};
use std::net::{SocketAddr, TcpListener, TcpStream};
use std::os::fd::{AsRawFd, RawFd};
use std::sync::Mutex;
use std::time::Duration;

/// How much is read at once.
const PIECE: usize = 16_384;

/// How many clients may wait to be accepted, as many as `admission` asks for.
const QUEUE: i32 = 4_096;

/// How long a client may take once it has begun, as in `admission serve` where nothing else is asked
/// for.
const TIMEOUT: Duration = Duration::from_secs(10);

const READABLE: u32 = 0x1;
const ENDED: u32 = 0x2000;
const ONCE: u32 = 1 << 30;
const ADD: i32 = 1;
const CHANGE: i32 = 3;
const LISTENER: u64 = u64::MAX;

/// What Linux has as `struct epoll_event` on x86-64.
#[repr(C, packed)]
struct Event {
    kinds: u32,
    data: u64,
}

extern "C" {
    fn listen(socket: i32, backlog: i32) -> i32;
    fn epoll_create1(flags: i32) -> i32;
    fn epoll_ctl(set: i32, what: i32, socket: i32, event: *mut Event) -> i32;
    fn epoll_wait(set: i32, events: *mut Event, most: i32, milliseconds: i32) -> i32;
}

/// The clients that wait, the connections to the backend that are kept, and the set that all threads
/// ask.
struct Room {
    set: RawFd,
    listener: TcpListener,
    backend: SocketAddr,
    clients: Mutex<HashMap<RawFd, TcpStream>>,
    kept: Mutex<Vec<TcpStream>>,
}

impl Room {
    fn watch(&self, what: i32, socket: RawFd, kinds: u32, data: u64) {
        let mut event = Event { kinds, data };
        assert_eq!(unsafe { epoll_ctl(self.set, what, socket, &mut event) }, 0);
    }

    /// Has a client wait until it sends something or ends.
    fn seat(&self, client: TcpStream, what: i32) {
        let socket = client.as_raw_fd();
        self.clients.lock().unwrap().insert(socket, client);
        self.watch(what, socket, READABLE | ENDED | ONCE, socket as u64);
    }

    /// The next client that has sent something.
    fn next(&self) -> TcpStream {
        loop {
            let mut event = Event { kinds: 0, data: 0 };
            if unsafe { epoll_wait(self.set, &mut event, 1, -1) } < 1 {
                continue;
            }
            if event.data != LISTENER {
                let socket = event.data as RawFd;
                if let Some(client) = self.clients.lock().unwrap().remove(&socket) {
                    return client;
                }
            } else if let Ok((client, _)) = self.listener.accept() {
                let prepared = client
                    .set_nonblocking(false)
                    .and_then(|()| client.set_nodelay(true))
                    .and_then(|()| client.set_read_timeout(Some(TIMEOUT)));
                if prepared.is_ok() {
                    self.seat(client, ADD);
                }
            }
        }
    }

    /// A connection to the backend on which nothing lies: the one that was kept last, or a new one.
    fn behind(&self) -> Result<TcpStream> {
        while let Some(stream) = self.kept.lock().unwrap().pop() {
            stream.set_nonblocking(true)?;
            let found = stream.peek(&mut [0]);
            stream.set_nonblocking(false)?;
            if found.is_err_and(|it| it.kind() == ErrorKind::WouldBlock) {
                return Ok(stream);
            }
        }
        let stream = TcpStream::connect(self.backend)?;
        stream.set_nodelay(true)?;
        Ok(stream)
    }

    /// One exchange, through buffers that are used again; whether the client may ask again.
    fn serve(&self, mut client: &TcpStream, texts: &mut [Vec<u8>; 2]) -> Result<bool> {
        let [request, answer] = texts;
        read_message(client, request)?;
        let mut behind = self.behind()?;
        behind.write_all(request)?;
        read_message(&behind, answer)?;
        let is_last = answer.windows(17).any(|it| it == b"Connection: close");
        if !is_last {
            self.kept.lock().unwrap().push(behind);
        }
        client.write_all(answer)?;
        Ok(!is_last)
    }

    fn work(&self) {
        let mut texts = [Vec::new(), Vec::new()];
        loop {
            let client = self.next();
            // A client that goes is no fault of this program's.
            if self.serve(&client, &mut texts).unwrap_or(false) {
                self.seat(client, CHANGE);
            }
        }
    }
}

/// Reads one message, its body as long as its Content-Length.
fn read_message(mut from: &TcpStream, text: &mut Vec<u8>) -> Result<()> {
    text.clear();
    let mut whole = None;
    while whole.is_none_or(|whole| text.len() < whole) {
        let before = text.len();
        text.resize(before + PIECE, 0);
        let read = from.read(&mut text[before..]);
        text.truncate(before + *read.as_ref().unwrap_or(&0));
        if read? == 0 {
            return Err(Error::from(ErrorKind::UnexpectedEof));
        }
        let end = text.windows(4).position(|it| it == b"\r\n\r\n").map(|at| at + 4);
        whole = whole.or_else(|| end.map(|end| end + length_of(&text[..end])));
    }
    Ok(())
}

/// The Content-Length of a head; 0 where it has none.
fn length_of(head: &[u8]) -> usize {
    let name = b"content-length:";
    head.split(|byte| *byte == b'\n')
        .find(|line| line.len() > name.len() && line[..name.len()].eq_ignore_ascii_case(name))
        .and_then(|line| std::str::from_utf8(&line[name.len()..]).ok()?.trim().parse().ok())
        .unwrap_or(0)
}

fn main() {
    let words: Vec<String> = std::env::args().skip(1).collect();
    let [listen_at, backend, threads] = &words[..] else {
        eprintln!("usage: bare_kept LISTEN BACKEND THREADS");
        std::process::exit(2);
    };
    let listener = TcpListener::bind(listen_at).expect("the address can be bound");
    // std's queue has 128 places.
    assert_eq!(unsafe { listen(listener.as_raw_fd(), QUEUE) }, 0);
    listener.set_nonblocking(true).expect("the listener can be asked without waiting");
    let room = Room {
        set: unsafe { epoll_create1(0) },
        listener,
        backend: backend.parse().expect("an address of the backend"),
        clients: Mutex::new(HashMap::new()),
        kept: Mutex::new(Vec::new()),
    };
    let threads: usize = threads.parse().expect("a number of threads");
    room.watch(ADD, room.listener.as_raw_fd(), READABLE, LISTENER);
    std::thread::scope(|scope| {
        for _ in 0..threads {
            scope.spawn(|| room.work());
        }
    });
}
