//! Reads one request over and over with `httparse`, timed: the peer of `bench/messages.py`. It reads
//! and checks what the product does: the limits of a head, the method, the target, Host, both lengths
//! rules, chunks and what follows the last one, and a client that waits to be asked for its body.
//!
//! The parts of a head share its bytes, as hyper's do: nothing of them is copied.
//!
//! Its word: how many times. The request comes on standard input. It writes the nanoseconds that all
//! readings took, then how many bytes their bodies had.
use std::env;
use std::io::{self, BufRead, BufReader, Read, Write};
use std::ops::Range;
use std::sync::Arc;
use std::time::Instant;

const MOST_HEAD: usize = 65_536;
const MOST_LINE: usize = 4_096;
const MOST_BODY: u64 = 8_388_608;
const MOST_LINES: usize = 100;

#[derive(Debug)]
#[allow(dead_code)]
enum Fault {
    Read(io::Error),
    Early,
    HeadTooLarge,
    BodyTooLarge,
    Malformed,
    Method,
    Coding,
    BothLengths,
}

impl From<io::Error> for Fault {
    fn from(error: io::Error) -> Fault {
        Fault::Read(error)
    }
}

/// A part of a head, which holds the whole of it.
#[allow(dead_code)]
struct Shared {
    head: Arc<Vec<u8>>,
    place: Range<usize>,
}

impl Shared {
    /// These bytes, which stand in the head.
    fn new(head: &Arc<Vec<u8>>, part: &[u8]) -> Shared {
        let from = part.as_ptr() as usize - head.as_ptr() as usize;
        Shared { head: Arc::clone(head), place: from..from + part.len() }
    }
}

#[allow(dead_code)]
struct Request {
    method: Shared,
    target: Shared,
    path: Shared,
    is_old: bool,
    headers: Vec<(Shared, Shared)>,
    body: Option<Vec<u8>>,
}

enum Framing {
    Bodiless,
    Sized(u64),
    Chunked,
}

/// Adds a line through its LF; all together have so many bytes at most.
fn push_line(reader: &mut impl BufRead, text: &mut Vec<u8>, most: usize) -> Result<usize, Fault> {
    let before = text.len();
    let room = (most - before) as u64;
    let read = reader.take(room).read_until(b'\n', text)?;
    match text.last() {
        Some(b'\n') if read > 0 => Ok(read),
        _ if text.len() == most => Err(Fault::HeadTooLarge),
        _ => Err(Fault::Early),
    }
}

fn is_empty_line(line: &[u8]) -> bool {
    line == b"\n" || line == b"\r\n"
}

/// The bytes of a head, through its empty line; empty lines in front count.
fn read_head(reader: &mut impl BufRead) -> Result<Vec<u8>, Fault> {
    let mut head = Vec::new();
    let (mut lines, mut has_begun) = (0, false);
    loop {
        let start = head.len();
        push_line(reader, &mut head, MOST_HEAD)?;
        let is_empty = is_empty_line(&head[start..]);
        if is_empty && has_begun {
            return Ok(head);
        }
        has_begun |= !is_empty;
        lines += usize::from(has_begun);
        if lines > MOST_LINES + 1 {
            return Err(Fault::HeadTooLarge);
        }
    }
}

fn is_named(header: &httparse::Header, name: &str) -> bool {
    header.name.eq_ignore_ascii_case(name)
}

fn count(headers: &[httparse::Header], name: &str) -> usize {
    headers.iter().filter(|header| is_named(header, name)).count()
}

fn trim(text: &[u8]) -> &[u8] {
    let is_blank = |byte: &u8| *byte == b' ' || *byte == b'\t';
    let start = text.iter().position(|byte| !is_blank(byte)).unwrap_or(text.len());
    let end = text.iter().rposition(|byte| !is_blank(byte)).map_or(start, |last| last + 1);
    &text[start..end]
}

/// The length that all parts of all lines agree on.
fn length(headers: &[httparse::Header]) -> Result<u64, Fault> {
    let mut parts = headers
        .iter()
        .filter(|header| is_named(header, "content-length"))
        .flat_map(|header| header.value.split(|byte| *byte == b','))
        .map(trim);
    let first = parts.next().ok_or(Fault::Malformed)?;
    if first.is_empty() || !first.iter().all(u8::is_ascii_digit) || parts.any(|part| part != first) {
        return Err(Fault::Malformed);
    }
    let digits = std::str::from_utf8(first).map_err(|_| Fault::Malformed)?;
    match digits.parse() {
        Ok(size) if size <= MOST_BODY => Ok(size),
        _ => Err(Fault::BodyTooLarge),
    }
}

fn framing(request: &httparse::Request, headers: &[httparse::Header]) -> Result<Framing, Fault> {
    let is_old = request.version == Some(0);
    match (count(headers, "transfer-encoding"), count(headers, "content-length")) {
        (0, 0) => Ok(Framing::Bodiless),
        (0, _) => length(headers).map(Framing::Sized),
        (_, 0) if is_old => Err(Fault::Malformed),
        (1, 0) => {
            let line = headers.iter().find(|header| is_named(header, "transfer-encoding"));
            match line {
                Some(line) if line.value.eq_ignore_ascii_case(b"chunked") => Ok(Framing::Chunked),
                _ => Err(Fault::Coding),
            }
        }
        (_, 0) => Err(Fault::Coding),
        _ => Err(Fault::BothLengths),
    }
}

/// The path of a target: what stands before its query, and of an absolute one behind its authority.
fn path<'a>(method: &str, target: &'a str) -> Result<&'a str, Fault> {
    let local = match target.get(..7) {
        _ if target.starts_with('/') => target,
        _ if target == "*" && method == "OPTIONS" => target,
        Some(scheme) if scheme.eq_ignore_ascii_case("http://") => {
            let rest = &target[7..];
            let end = rest.find(['/', '?']).unwrap_or(rest.len());
            if end == 0 || rest[..end].contains('@') {
                return Err(Fault::Malformed);
            }
            &rest[end..]
        }
        _ => return Err(Fault::Malformed),
    };
    Ok(local.split('?').next().unwrap_or(""))
}

fn read_sized(reader: &mut impl BufRead, body: &mut Vec<u8>, size: u64) -> Result<(), Fault> {
    let read = reader.take(size).read_to_end(body)?;
    if (read as u64) < size { Err(Fault::Early) } else { Ok(()) }
}

fn read_chunks(reader: &mut impl BufRead) -> Result<Vec<u8>, Fault> {
    let (mut body, mut line) = (Vec::new(), Vec::new());
    loop {
        line.clear();
        push_line(reader, &mut line, MOST_LINE)?;
        let size = match httparse::parse_chunk_size(&line) {
            Ok(httparse::Status::Complete((len, size))) if len == line.len() => size,
            _ => return Err(Fault::Malformed),
        };
        if size > MOST_BODY - body.len() as u64 {
            return Err(Fault::BodyTooLarge);
        }
        if size == 0 {
            break;
        }
        read_sized(reader, &mut body, size)?;
        let mut end = [0; 2];
        reader.read_exact(&mut end)?;
        if end != *b"\r\n" {
            return Err(Fault::Malformed);
        }
    }
    let mut trailers = Vec::new();
    loop {
        let start = trailers.len();
        push_line(reader, &mut trailers, MOST_HEAD)?;
        if is_empty_line(&trailers[start..]) {
            return Ok(body);
        }
    }
}

fn read_request(reader: &mut impl BufRead, writer: &mut impl Write) -> Result<Request, Fault> {
    let head = Arc::new(read_head(reader)?);
    let mut room = [httparse::EMPTY_HEADER; MOST_LINES];
    let mut parsed = httparse::Request::new(&mut room);
    match parsed.parse(&head) {
        Ok(httparse::Status::Complete(len)) if len == head.len() => {}
        _ => return Err(Fault::Malformed),
    }
    let method = parsed.method.ok_or(Fault::Malformed)?;
    let target = parsed.path.ok_or(Fault::Malformed)?;
    if method == "CONNECT" || method == "TRACE" {
        return Err(Fault::Method);
    }
    let path = path(method, target)?;
    let headers = &*parsed.headers;
    let is_old = parsed.version == Some(0);
    match count(headers, "host") {
        1 => {}
        0 if is_old => {}
        _ => return Err(Fault::Malformed),
    }
    let framing = framing(&parsed, headers)?;
    let waits = headers.iter().any(|header| {
        is_named(header, "expect") && header.value.eq_ignore_ascii_case(b"100-continue")
    });
    if waits && !is_old && !matches!(framing, Framing::Bodiless | Framing::Sized(0)) {
        writer.write_all(b"HTTP/1.1 100 Continue\r\n\r\n")?;
        writer.flush()?;
    }
    let part = |bytes| Shared::new(&head, bytes);
    let headers =
        headers.iter().map(|header| (part(header.name.as_bytes()), part(header.value))).collect();
    let (method, target, path) = (method.as_bytes(), target.as_bytes(), path.as_bytes());
    let (method, target, path) = (part(method), part(target), part(path));
    let body = match framing {
        Framing::Bodiless => None,
        Framing::Sized(size) => {
            let mut body = Vec::new();
            read_sized(reader, &mut body, size)?;
            Some(body)
        }
        Framing::Chunked => Some(read_chunks(reader)?),
    };
    Ok(Request { method, target, path, is_old, headers, body })
}

fn main() {
    let times: u32 = env::args().nth(1).expect("words: times").parse().expect("a number");
    let mut message = Vec::new();
    io::stdin().read_to_end(&mut message).expect("a request");
    let began = Instant::now();
    let mut total = 0;
    for _ in 0..times {
        let mut reader = BufReader::new(message.as_slice());
        let request = read_request(&mut reader, &mut Vec::new()).expect("a request");
        total += request.body.map_or(0, |body| body.len() as u64);
    }
    println!("{} bytes {total}", began.elapsed().as_nanos());
}
