//! Calls at fixed moments, whether or not those before are answered: the open loop of
//! `bench/proxy.py` and `bench/exchanges.py`.
//!
//! Its words: a port, how many calls a second, for how many seconds, `kept` or `closed`, and how
//! many threads there are (128), at least as many as calls are made at once. Each of them takes the
//! next call, waits until it is due, makes it over the thread's connection or over one of its own,
//! and takes the next one. Of each call it writes a line: when it was due, in microseconds since
//! the first one; the status of its answer, 0 where it had none in five seconds; how many
//! microseconds after that it was answered; and how many after that it began.
use std::env;
use std::io::{self, Read, Write};
use std::net::TcpStream;
use std::sync::atomic::{AtomicU64, Ordering};
use std::thread;
use std::time::{Duration, Instant};

const THREADS: usize = 128;
/// What a thread needs of memory.
const STACK: usize = 65_536;
const PATIENCE: Duration = Duration::from_secs(5);
const CLOSED: &[u8] = b"GET / HTTP/1.1\r\nHost: h\r\nConnection: close\r\n\r\n";
const KEPT: &[u8] = b"GET / HTTP/1.1\r\nHost: h\r\n\r\n";

/// When a call was due, its status, and how long after that it was answered, and began.
struct Call {
    due: Duration,
    status: u16,
    took: Duration,
    late: Duration,
}

fn word<T: std::str::FromStr>(at: usize, what: &str) -> T {
    let word = env::args().nth(at).unwrap_or_default();
    word.parse().unwrap_or_else(|_| panic!("{what} in place of {word:?}"))
}

fn connect(port: u16) -> io::Result<TcpStream> {
    let stream = TcpStream::connect(("127.0.0.1", port))?;
    stream.set_read_timeout(Some(PATIENCE))?;
    stream.set_nodelay(true)?;
    Ok(stream)
}

/// How many bytes a whole answer has, and whether it ends its connection, once its head is there.
fn whole(text: &[u8]) -> Option<(usize, bool)> {
    let head = text.windows(4).position(|it| it == b"\r\n\r\n")? + 4;
    let lines = String::from_utf8_lossy(&text[..head]).to_ascii_lowercase();
    let body = lines.lines().find_map(|it| it.strip_prefix("content-length:")?.trim().parse().ok());
    Some((head + body.unwrap_or(0), lines.contains("\nconnection: close")))
}

/// The status of the whole answer on a connection, and of its end behind it where it isn't kept,
/// and whether it can be used again; none where it ended before anything was answered.
fn ask(stream: &mut TcpStream, is_kept: bool) -> io::Result<Option<(u16, bool)>> {
    if stream.write_all(if is_kept { KEPT } else { CLOSED }).is_err() {
        return Ok(None);
    }
    let (mut said, mut room) = (Vec::new(), [0; 4_096]);
    loop {
        let read = match stream.read(&mut room) {
            Err(fault) if fault.kind() == io::ErrorKind::ConnectionReset => 0,
            read => read?,
        };
        said.extend_from_slice(&room[..read]);
        match whole(&said) {
            Some((length, is_last)) if said.len() >= length && (is_kept || read == 0) => {
                let status = String::from_utf8_lossy(&said[9..12]).parse().unwrap_or(0);
                return Ok(Some((status, is_kept && !is_last)));
            }
            _ if read == 0 && said.is_empty() => return Ok(None),
            _ if read == 0 => return Ok(Some((0, false))),
            _ => {}
        }
    }
}

/// The status of one call, over the connection that is kept, if there is one; and over a new one
/// where that one was closed meanwhile.
fn call(port: u16, kept: &mut Option<TcpStream>, is_kept: bool) -> io::Result<u16> {
    if let Some(mut stream) = kept.take() {
        if let Some((status, is_open)) = ask(&mut stream, is_kept)? {
            *kept = is_open.then_some(stream);
            return Ok(status);
        }
    }
    let mut stream = connect(port)?;
    let (status, is_open) = ask(&mut stream, is_kept)?.unwrap_or((0, false));
    *kept = is_open.then_some(stream);
    Ok(status)
}

fn main() {
    let (port, rate): (u16, f64) = (word(1, "a port"), word(2, "calls a second"));
    let (seconds, how): (f64, String) = (word(3, "seconds"), word(4, "kept or closed"));
    let threads = if env::args().len() > 5 { word(5, "threads") } else { THREADS };
    let (count, is_kept) = ((rate * seconds) as u64, how == "kept");
    let next = AtomicU64::new(0);
    // All threads are there before the first call is due.
    let begun = Instant::now() + Duration::from_millis(200 + threads as u64 / 4);
    let serve = || {
        let (mut kept, mut found) = (None, Vec::new());
        loop {
            let number = next.fetch_add(1, Ordering::Relaxed);
            if number >= count {
                return found;
            }
            let due = Duration::from_secs_f64(number as f64 / rate);
            thread::sleep((begun + due).saturating_duration_since(Instant::now()));
            let late = (begun + due).elapsed();
            let status = call(port, &mut kept, is_kept).unwrap_or(0);
            found.push(Call { due, status, took: (begun + due).elapsed(), late });
        }
    };
    thread::scope(|scope| {
        let begin = || thread::Builder::new().stack_size(STACK).spawn_scoped(scope, serve);
        let threads: Vec<_> = (0..threads).map(|_| begin().expect("a thread")).collect();
        let mut text = String::new();
        for it in threads.into_iter().flat_map(|it| it.join().expect("a thread's calls")) {
            let times = [it.due, it.took, it.late].map(|it| it.as_micros());
            text += &format!("{} {} {} {}\n", times[0], it.status, times[1], times[2]);
        }
        io::stdout().write_all(text.as_bytes()).expect("the calls are written");
    });
}
