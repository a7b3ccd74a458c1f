//! The status port: HTTP/1.0, GET, a head of at most 4 KiB in at most 5 seconds, so many at a time and no more. Neighbours reach it too,
//! for the torrents of histories, so it is bounded as the wire is.

use crate::gate::Gate;
use crate::link::connect;
use crate::{status, wire};
use std::io::{Error, ErrorKind, Read, Result, Write};
use std::net::{SocketAddr, TcpListener, TcpStream};
use std::sync::Arc;
use std::thread;
use std::time::{Duration, Instant};

const TIME: Duration = Duration::from_secs(5);
const MOST_HEAD: usize = 4096;
/// Threads, so connections at a time: a slow one holds up one of them.
const THREADS: usize = 4;

/// Answers for ever, on threads of its own.
pub fn serve(gate: &Arc<Gate>, listener: TcpListener) -> Result<()> {
    for _ in 0..THREADS {
        let (gate, listener) = (gate.clone(), listener.try_clone()?);
        thread::Builder::new().stack_size(2 << 20).spawn(move || loop {
            match listener.accept() {
                Ok((link, _)) => drop(answer(&gate, &link)),
                Err(_) => thread::sleep(Duration::from_millis(100)),
            }
        })?;
    }
    Ok(())
}

struct Page {
    code: &'static str,
    kind: &'static str,
    body: Vec<u8>,
}

impl Page {
    fn ok(kind: &'static str, body: impl Into<Vec<u8>>) -> Page {
        Page { code: "200 OK", kind, body: body.into() }
    }

    fn no(code: &'static str) -> Page {
        Page { code, kind: "text/plain; charset=utf-8", body: format!("{code}\n").into_bytes() }
    }
}

fn answer(gate: &Gate, mut link: &TcpStream) -> Result<()> {
    let deadline = Instant::now() + TIME;
    link.set_write_timeout(Some(TIME))?;
    let head = head(link, deadline)?;
    let page = page(gate, &head);
    let front = format!(
        "HTTP/1.0 {}\r\nContent-Type: {}\r\nContent-Length: {}\r\nConnection: close\r\nCache-Control: no-store\r\n\
         Content-Security-Policy: default-src 'none'; style-src 'unsafe-inline'\r\nX-Content-Type-Options: nosniff\r\n\r\n",
        page.code,
        page.kind,
        page.body.len()
    );
    link.write_all(front.as_bytes())?;
    link.write_all(&page.body)
}

/// The first line and the rest up to the empty line.
fn head(mut link: &TcpStream, deadline: Instant) -> Result<Vec<u8>> {
    let (mut head, mut bytes) = (Vec::new(), [0; 1024]);
    while !head.windows(4).any(|end| end == b"\r\n\r\n") {
        let left = deadline.saturating_duration_since(Instant::now());
        if left.is_zero() || head.len() >= MOST_HEAD {
            return Err(ErrorKind::TimedOut.into());
        }
        link.set_read_timeout(Some(left.max(Duration::from_millis(1))))?;
        match link.read(&mut bytes) {
            Ok(0) => return Err(ErrorKind::UnexpectedEof.into()),
            Ok(size) => head.extend_from_slice(&bytes[..size]),
            Err(error) if wire::is_late(&error) => (),
            Err(error) => return Err(error),
        }
    }
    Ok(head)
}

fn page(gate: &Gate, head: &[u8]) -> Page {
    let line = head.split(|byte| *byte == b'\r').next().unwrap_or_default();
    let words: Vec<&[u8]> = line.split(|byte| *byte == b' ').collect();
    let [b"GET", path, _] = words[..] else { return Page::no("400 Bad Request") };
    match path {
        b"/" => Page::ok("text/html; charset=utf-8", status::html(&status::look(gate))),
        b"/status.json" => Page::ok("application/json", status::json(&status::look(gate))),
        b"/metrics" => Page::ok("text/plain; version=0.0.4", status::metrics(&status::look(gate))),
        path => {
            let name = path.strip_prefix(b"/torrents/").and_then(|name| std::str::from_utf8(name).ok());
            let newest = gate.newest.lock().unwrap();
            match name.and_then(|name| newest.get(name)) {
                Some(bytes) => Page::ok("application/x-bittorrent", bytes.clone()),
                None => Page::no("404 Not Found"),
            }
        }
    }
}

/// What another gateway's status port has at a path, of at most so many bytes.
pub fn get(from: SocketAddr, to: SocketAddr, path: &str, most: usize) -> Result<Vec<u8>> {
    let mut link = connect(from, to)?;
    let deadline = Instant::now() + 2 * TIME;
    link.set_write_timeout(Some(TIME))?;
    link.write_all(format!("GET {path} HTTP/1.0\r\nHost: {to}\r\n\r\n").as_bytes())?;
    let (mut answer, mut bytes) = (Vec::new(), vec![0; 65536]);
    loop {
        let left = deadline.saturating_duration_since(Instant::now());
        if left.is_zero() || answer.len() > MOST_HEAD + most {
            return Err(ErrorKind::TimedOut.into());
        }
        link.set_read_timeout(Some(left.max(Duration::from_millis(1))))?;
        match link.read(&mut bytes) {
            Ok(0) => break,
            Ok(size) => answer.extend_from_slice(&bytes[..size]),
            Err(error) if wire::is_late(&error) => (),
            Err(error) => return Err(error),
        }
    }
    let wrong = |said: &str| Error::new(ErrorKind::InvalidData, said);
    let end = answer.windows(4).position(|end| end == b"\r\n\r\n").ok_or_else(|| wrong("no answer"))?;
    let is_ok = answer.starts_with(b"HTTP/1.0 200 ") || answer.starts_with(b"HTTP/1.1 200 ");
    match is_ok && answer.len() - end - 4 <= most {
        true => Ok(answer.split_off(end + 4)),
        false => Err(wrong(&String::from_utf8_lossy(&answer[..end.min(40)]))),
    }
}
