//! A small HTTP server: one request for each connection.

use std::io::{ErrorKind, Read, Write};
use std::net::{Shutdown, TcpListener, TcpStream};
use std::sync::Arc;
use std::sync::atomic::{AtomicUsize, Ordering};
use std::thread;
use std::time::{Duration, Instant};

/// The most bytes of a request.
const MOST_BYTES: usize = 8 * 1024;
/// The most connections at once. Further ones are closed.
const MOST_CONNECTIONS: usize = 64;
/// The time that a client has to send a request, and to take the response.
const TIME: Duration = Duration::from_secs(5);
/// The page may load nothing, except from this server.
const POLICY: &str = "default-src 'none'; script-src 'unsafe-inline'; style-src 'unsafe-inline'; img-src data:; connect-src 'self'";

pub struct Request {
    pub method: String,
    pub path: String,
    /// The names and values of the query, in order.
    pub query: Vec<(String, String)>,
}

pub struct Response {
    pub status: &'static str,
    pub kind: &'static str,
    pub body: String,
}

impl Response {
    pub fn json(body: String) -> Response {
        Response {
            status: "200 OK",
            kind: "application/json",
            body,
        }
    }

    pub fn error(status: &'static str) -> Response {
        Response {
            status,
            kind: "text/plain; charset=utf-8",
            body: format!("{status}\n"),
        }
    }
}

/// Answers requests, each in a thread.
pub fn serve(
    listener: &TcpListener,
    answer: impl Fn(&Request) -> Response + Send + Sync + 'static,
) {
    let (answer, open) = (Arc::new(answer), Arc::new(AtomicUsize::new(0)));
    for stream in listener.incoming() {
        let Ok(stream) = stream else {
            thread::sleep(Duration::from_millis(10)); // For instance, there are too many open files.
            continue;
        };
        if open.fetch_add(1, Ordering::Relaxed) >= MOST_CONNECTIONS {
            open.fetch_sub(1, Ordering::Relaxed);
            continue;
        }
        let (answer, open) = (Arc::clone(&answer), Arc::clone(&open));
        thread::spawn(move || {
            let _ = exchange(stream, &*answer); // A client may leave at any time.
            open.fetch_sub(1, Ordering::Relaxed);
        });
    }
}

fn exchange(mut stream: TcpStream, answer: &dyn Fn(&Request) -> Response) -> std::io::Result<()> {
    stream.set_write_timeout(Some(TIME))?;
    let response = match head_of(&mut stream)? {
        Ok(head) => parse(&head).map_or_else(
            || Response::error("400 Bad Request"),
            |request| answer(&request),
        ),
        Err(status) => Response::error(status),
    };
    let Response { status, kind, body } = response;
    let length = body.len();
    let allowed = if status.starts_with("405") {
        "Allow: GET, POST\r\n"
    } else {
        ""
    };
    let head = format!(
        "HTTP/1.1 {status}\r\nContent-Type: {kind}\r\nContent-Length: {length}\r\n{allowed}Connection: close\r\n\
         Cache-Control: no-store\r\nX-Content-Type-Options: nosniff\r\nContent-Security-Policy: {POLICY}\r\n\r\n"
    );
    stream.write_all(&[head.as_bytes(), body.as_bytes()].concat())?;
    stream.shutdown(Shutdown::Write)?;
    // A close with unread bytes would reset the connection, and the client could lose the response.
    stream.set_read_timeout(Some(Duration::from_millis(100)))?;
    let mut rest = [0; MOST_BYTES];
    for _ in 0..8 {
        if stream.read(&mut rest)? == 0 {
            break;
        }
    }
    Ok(())
}

/// The bytes up to the first empty line, or the status that refuses them.
fn head_of(stream: &mut TcpStream) -> std::io::Result<Result<Vec<u8>, &'static str>> {
    let (end, mut head, mut part) = (Instant::now() + TIME, Vec::new(), [0; 1024]);
    loop {
        let left = end.saturating_duration_since(Instant::now());
        if left.is_zero() {
            return Ok(Err("408 Request Timeout"));
        }
        stream.set_read_timeout(Some(left))?;
        let count = match stream.read(&mut part) {
            Ok(count) => count,
            Err(error) if matches!(error.kind(), ErrorKind::WouldBlock | ErrorKind::TimedOut) => {
                continue;
            }
            Err(error) => return Err(error),
        };
        head.extend(&part[..count]);
        let found = head.windows(4).position(|bytes| bytes == b"\r\n\r\n");
        match found {
            Some(place) if place + 4 <= MOST_BYTES => return Ok(Ok(head[..place].to_vec())),
            None if count > 0 && head.len() <= MOST_BYTES => {}
            None if count == 0 => return Ok(Err("400 Bad Request")),
            _ => return Ok(Err("413 Content Too Large")),
        }
    }
}

/// Reads the first line of a request: a method, a target and the version.
fn parse(head: &[u8]) -> Option<Request> {
    let line = std::str::from_utf8(head).ok()?.split("\r\n").next()?;
    let [method, target, "HTTP/1.0" | "HTTP/1.1"] = line.split(' ').collect::<Vec<_>>()[..] else {
        return None;
    };
    let is_method = !method.is_empty() && method.bytes().all(|byte| byte.is_ascii_uppercase());
    let (path, query) = target.split_once('?').unwrap_or((target, ""));
    if !is_method || !path.starts_with('/') {
        return None;
    }
    let pairs = query.split('&').filter(|pair| !pair.is_empty());
    let pair = |pair: &str| {
        pair.split_once('=')
            .map(|(name, value)| (name.into(), value.into()))
    };
    Some(Request {
        method: method.into(),
        path: path.into(),
        query: pairs.map(pair).collect::<Option<_>>()?,
    })
}
