//! A bare blocking proxy: the limit of the form that the gateway has, a worker for each connection, and no competitor. It
//! checks nothing, limits nothing and keeps no history. Each of its threads accepts a connection, reads up to the end of
//! the head and what its Content-Length tells, opens a connection to the backend, writes the request to it as it came,
//! reads the answer to the end of the connection, and writes it to the client. `bench/proxy.py` builds and runs it.
//!
//! bare_proxy LISTEN BACKEND THREADS
use std::io::{Error, ErrorKind, Read, Result, Write};
use std::net::{SocketAddr, TcpListener, TcpStream};
use std::os::fd::AsRawFd;
use std::time::Duration;

/// How much is read at once.
const PIECE: usize = 16_384;

/// How many clients may wait to be accepted, as many as `admission` asks for.
const QUEUE: i32 = 4_096;

/// How long a client may take, as in `admission serve` where nothing else is asked for.
const TIMEOUT: Duration = Duration::from_secs(10);

extern "C" {
    fn listen(socket: i32, backlog: i32) -> i32;
}

fn main() {
    let words: Vec<String> = std::env::args().skip(1).collect();
    let [listen_at, backend, threads] = &words[..] else {
        eprintln!("usage: bare_proxy LISTEN BACKEND THREADS");
        std::process::exit(2);
    };
    let listener = TcpListener::bind(listen_at).expect("the address can be bound");
    // std's queue has 128 places.
    assert_eq!(unsafe { listen(listener.as_raw_fd(), QUEUE) }, 0);
    let backend: SocketAddr = backend.parse().expect("an address of the backend");
    let threads: usize = threads.parse().expect("a number of threads");
    std::thread::scope(|scope| {
        for _ in 0..threads {
            scope.spawn(|| work(&listener, backend));
        }
    });
}

/// Serves one client after the other.
fn work(listener: &TcpListener, backend: SocketAddr) {
    let (mut request, mut answer) = (Vec::new(), Vec::new());
    loop {
        if let Ok((client, _)) = listener.accept() {
            // A client that goes is no fault of this program's.
            let _ = serve(&client, backend, &mut request, &mut answer);
        }
    }
}

/// Serves one client, through buffers that are used again.
fn serve(
    mut client: &TcpStream,
    backend: SocketAddr,
    request: &mut Vec<u8>,
    answer: &mut Vec<u8>,
) -> Result<()> {
    client.set_read_timeout(Some(TIMEOUT))?;
    read_request(client, request)?;
    let mut behind = TcpStream::connect(backend)?;
    behind.write_all(request)?;
    answer.clear();
    while read_piece(&mut behind, answer)? > 0 {}
    client.write_all(answer)
}

/// Reads one request, its body as long as its Content-Length.
fn read_request(mut client: &TcpStream, request: &mut Vec<u8>) -> Result<()> {
    request.clear();
    let head = loop {
        let looked = request.len().saturating_sub(3);
        if read_piece(&mut client, request)? == 0 {
            return Err(Error::from(ErrorKind::UnexpectedEof));
        }
        let found = request[looked..].windows(4).position(|it| it == b"\r\n\r\n");
        if let Some(at) = found {
            break looked + at + 4;
        }
    };
    let whole = head + length_of(&request[..head]);
    while request.len() < whole {
        if read_piece(&mut client, request)? == 0 {
            return Err(Error::from(ErrorKind::UnexpectedEof));
        }
    }
    Ok(())
}

/// Reads once, behind what was read before; how many bytes came.
fn read_piece(from: &mut impl Read, into: &mut Vec<u8>) -> Result<usize> {
    let before = into.len();
    into.resize(before + PIECE, 0);
    let read = from.read(&mut into[before..]);
    into.truncate(before + *read.as_ref().unwrap_or(&0));
    read
}

/// The Content-Length of a head; 0 where it has none.
fn length_of(head: &[u8]) -> usize {
    let name = b"content-length:";
    head.split(|byte| *byte == b'\n')
        .find(|line| line.len() > name.len() && line[..name.len()].eq_ignore_ascii_case(name))
        .and_then(|line| std::str::from_utf8(&line[name.len()..]).ok()?.trim().parse().ok())
        .unwrap_or(0)
}
