//! Requests to the explorer, good and bad, and the page in a browser.

use crate::client::{DEADLINE, Explorer, until};
use std::io::{Read, Write};
use std::net::TcpStream;
use std::process::Command;

#[test]
fn bad_requests_are_refused() {
    let explorer = Explorer::paused();
    let zeros = "0".repeat(64);
    for (status, method, target) in [
        (404, "GET", "/favicon.ico"),
        (404, "POST", "/../do"),
        (404, "GET", "//"),
        (405, "POST", "/"),
        (405, "HEAD", "/"),
        (405, "PUT", "/state?store=0"),
        (405, "DELETE", "/block"),
        (405, "GET", "/do?what=pause"),
        (400, "GET", "/?x=1"),
        (400, "GET", "/state"),
        (400, "GET", "/state?store=4"),
        (400, "GET", "/state?store=-1"),
        (400, "GET", "/state?store=99999999999999999999"),
        (400, "GET", "/state?store=%30"),
        (400, "GET", "/state?store=0&store=1"),
        (400, "GET", "/state?store=0&x=1"),
        (400, "GET", "/state?store"),
        (400, "GET", "/block?store=0"),
        (400, "GET", "/block?store=0&digest=ab"),
        (
            400,
            "GET",
            &format!("/block?store=0&digest={}g", &zeros[1..]),
        ),
        (400, "GET", &format!("/block?digest={zeros}")),
        (400, "POST", "/do"),
        (400, "POST", "/do?what="),
        (400, "POST", "/do?what=stop"),
        (400, "POST", "/do?what=crash"),
        (400, "POST", "/do?what=silent&validator=4"),
        (400, "get", "/"),
        (400, "GET", "state"),
        (400, "GET", "/ /"),
    ] {
        assert_eq!(explorer.ask(method, target).0, status, "{method} {target}");
    }
    assert!(
        explorer
            .exchange(b"GET / HTTP/1.1\r\nX: 1\r\n\r\nbody")
            .starts_with("HTTP/1.1 200 ")
    );
    assert!(
        explorer
            .exchange(b"POST / HTTP/1.1\r\n\r\n")
            .contains("\r\nAllow: ")
    );
    let long = [&b"GET / HTTP/1.1\r\nX: "[..], &[b'x'; 9_000], b"\r\n\r\n"].concat();
    for (status, bytes) in [
        ("400", &b""[..]),
        ("400", b"GET / HTTP/1.1\r\n"),
        ("400", b"\r\n\r\n"),
        ("400", b"GET /\r\n\r\n"),
        ("400", b"GET / HTTP/2\r\n\r\n"),
        ("400", b"\xff\xfe\0\r\n\r\n"),
        ("413", &long),
        ("413", &[0; 8_193]),
    ] {
        let response = explorer.exchange(bytes);
        let place = &bytes[..bytes.len().min(20)];
        assert!(
            response.starts_with(&format!("HTTP/1.1 {status} ")),
            "{place:?}: {response}"
        );
    }
    assert_eq!(explorer.ask("GET", "/state?store=0").0, 200);
}

/// Every response has a status, whichever byte of a request is changed.
#[test]
fn altered_requests_are_answered() {
    let explorer = Explorer::paused();
    let request = format!(
        "GET /block?store=0&digest={} HTTP/1.1\r\n\r\n",
        "0".repeat(64)
    );
    for place in 0..request.len() {
        for flip in [0x01, 0x20, 0x80] {
            let mut bytes = request.clone().into_bytes();
            bytes[place] ^= flip;
            let response = explorer.exchange(&bytes);
            assert!(
                response.starts_with("HTTP/1.1 40"),
                "byte {place} of {bytes:?}: {response}"
            );
        }
    }
    assert_eq!(explorer.ask("GET", "/state?store=0").0, 200);
}

/// A client that sends nothing is refused after a time, and many of them do not stop the server.
#[test]
fn slow_clients_stop_nobody() {
    let explorer = Explorer::start();
    let connect = |_| TcpStream::connect(explorer.address).expect("a connection");
    let mut idle: Vec<TcpStream> = (0..100).map(connect).collect();
    let _ = idle[0].write_all(b"GET / HT");
    idle[0].set_read_timeout(Some(DEADLINE)).expect("a timeout");
    let mut response = String::new();
    idle[0].read_to_string(&mut response).expect("a response");
    assert!(response.starts_with("HTTP/1.1 408 "), "{response}");
    let request = b"GET /state?store=0 HTTP/1.1\r\n\r\n";
    until("the server answers", || {
        explorer.exchange(request).starts_with("HTTP/1.1 200 ")
    });
}

#[test]
fn the_page_loads_nothing_from_another_host() {
    let explorer = Explorer::paused();
    let response = explorer.exchange(b"GET / HTTP/1.1\r\n\r\n");
    assert!(response.starts_with("HTTP/1.1 200 OK\r\nContent-Type: text/html; charset=utf-8\r\n"));
    assert!(response.contains("\r\nContent-Security-Policy: default-src 'none'; "));
    assert!(explorer.address.ip().is_loopback());
    let page = response.split_once("\r\n\r\n").expect("a head").1;
    assert!(page.starts_with("<!doctype html>") && page.trim_end().ends_with("</html>"));
    let page = page.replace("http://www.w3.org/2000/svg", ""); // The name of a format: nothing is loaded.
    for outside in ["://", "src=", "@import", "<link rel=\"style", "import("] {
        assert!(!page.contains(outside), "the page has {outside}");
    }
    assert!(page.split("url(").skip(1).all(|rest| rest.starts_with('#')));
    assert!(
        page.split("href=")
            .skip(1)
            .all(|rest| rest.starts_with("\"data:"))
    );
    for button in ["pause", "step", "equivocate", "silent", "lose", "crash"] {
        assert!(
            page.contains(&format!("<button id=\"{button}\"")),
            "{button}"
        );
    }
}

/// A time limit, a program and its options.
const CHROMIUM: &str = "120 chromium --headless --no-sandbox --disable-gpu --window-size=1280,800 \
                        --force-prefers-reduced-motion --virtual-time-budget=4000";

/// The page as its script draws it at this address, or `None` if chromium is not installed. It leaves a picture in
/// target/tmp/page.png. README's picture is made of it: `pngquant --force --output ../../docs/page.png target/tmp/page.png`.
fn drawn(address: &str) -> Option<String> {
    let room = env!("CARGO_TARGET_TMPDIR");
    let profile = format!("{room}/chromium-{}", std::process::id());
    let ran = Command::new("timeout")
        .args(CHROMIUM.split(' '))
        .arg(format!("--user-data-dir={profile}"))
        .arg(format!("--screenshot={room}/page.png"))
        .args(["--dump-dom", address])
        .output()
        .expect("timeout");
    let _ = std::fs::remove_dir_all(profile);
    let page = String::from_utf8(ran.stdout).expect("a text");
    let said = String::from_utf8_lossy(&ran.stderr);
    assert!(
        ran.status.success() || ran.status.code() == Some(127),
        "{said}"
    );
    ran.status.success().then_some(page)
}

/// The script of the page draws what the store has, and lights the selected block and its parents.
#[test]
fn the_page_draws_the_blocks() {
    let explorer = Explorer::paused();
    explorer.step(6);
    explorer.act("equivocate", 2);
    explorer.step(2);
    explorer.act("silent", 3);
    explorer.step(1);
    explorer.act("lose", 3);
    explorer.step(1);
    let blocks = explorer.blocks(3);
    let chosen = blocks.iter().rfind(|shown| shown.state == "complete");
    let chosen = &chosen.expect("a complete block").digest;
    let Some(page) = drawn(&format!("http://{}/#3/{chosen}", explorer.address)) else {
        return println!("skipped: the_page_draws_the_blocks: chromium is not installed");
    };
    for shown in &blocks {
        let (round, author, state) = (shown.round, shown.author, &shown.state);
        let label = format!("aria-label=\"round {round}, validator {author}, {state}\"");
        let before = page.split_once(&label).map(|(before, _)| before);
        let tag = before.and_then(|before| before.rsplit_once("<g "));
        let class = format!("class=\"block {state}");
        assert!(
            tag.is_some_and(|(_, tag)| tag.contains(&class)),
            "{label} is not drawn"
        );
    }
    for state in ["stored", "complete", "collected", "not stored"] {
        let is_there = blocks.iter().any(|shown| shown.state == state);
        assert!(is_there, "no block is {state}");
    }
    let block = explorer.block(3, chosen);
    let parents = block.get("written").list("parents").len();
    assert_eq!(page.matches(" lit\"").count(), parents);
    let faint = page.matches(" faint\" aria-label").count();
    assert_eq!(faint, blocks.len() - 1 - parents);
    for part in [
        &format!("<dd class=\"hex\">{chosen}</dd>"),
        "<em>silent</em>",
        "class=\"about\"",
        "class=\"twins\"",
        "A certified block is not stored.",
    ] {
        assert!(page.contains(part), "{part} is not drawn");
    }
}
