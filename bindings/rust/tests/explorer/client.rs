//! A client of the explorer, and what it reads from the JSON.

use crate::http;
use crate::site;
use crate::world::World;
use std::io::{Read, Write};
use std::net::{Shutdown, SocketAddr, TcpListener, TcpStream};
use std::thread;
use std::time::{Duration, Instant};

/// How long a test waits for a condition.
pub const DEADLINE: Duration = Duration::from_secs(60);

/// Waits until the condition holds.
pub fn until(what: &str, mut holds: impl FnMut() -> bool) {
    let began = Instant::now();
    while !holds() {
        assert!(began.elapsed() < DEADLINE, "waited too long: {what}");
        thread::sleep(Duration::from_millis(10));
    }
}

/// A JSON value.
#[derive(Clone, Debug, PartialEq)]
pub enum Value {
    Null,
    Bool(bool),
    Number(u64),
    Text(String),
    List(Vec<Value>),
    Map(Vec<(String, Value)>),
}

impl Value {
    pub fn parse(text: &str) -> Value {
        let mut rest = text;
        let value = Value::read(&mut rest);
        assert_eq!(rest, "", "what follows the value");
        value
    }

    /// Reads a value without white space, as the explorer writes it. Its texts escape nothing.
    fn read(rest: &mut &str) -> Value {
        for (word, value) in [
            ("null", Value::Null),
            ("true", Value::Bool(true)),
            ("false", Value::Bool(false)),
        ] {
            if skip(rest, word) {
                return value;
            }
        }
        match rest.as_bytes()[0] {
            b'"' => {
                let (text, after) = rest[1..].split_once('"').expect("the end of a text");
                assert!(!text.contains('\\'), "{text}");
                *rest = after;
                Value::Text(text.into())
            }
            b'[' => Value::List(Value::items(rest, "[", "]", Value::read)),
            b'{' => Value::Map(Value::items(rest, "{", "}", |rest| {
                let name = Value::read(rest).text().to_string();
                assert!(skip(rest, ":"), "a colon after {name}");
                (name, Value::read(rest))
            })),
            _ => {
                let end = rest
                    .find(|letter: char| !letter.is_ascii_digit())
                    .unwrap_or(rest.len());
                let number = rest[..end].parse().expect("a number");
                *rest = &rest[end..];
                Value::Number(number)
            }
        }
    }

    fn items<T>(rest: &mut &str, open: &str, close: &str, item: impl Fn(&mut &str) -> T) -> Vec<T> {
        assert!(skip(rest, open));
        let mut items = Vec::new();
        while !skip(rest, close) {
            assert!(items.is_empty() || skip(rest, ","), "a comma before {rest}");
            items.push(item(rest));
        }
        items
    }

    pub fn get(&self, name: &str) -> &Value {
        let Value::Map(entries) = self else {
            panic!("{self:?} has no {name}");
        };
        let found = entries.iter().find(|(known, _)| known == name);
        &found.unwrap_or_else(|| panic!("no {name}")).1
    }

    pub fn number(&self, name: &str) -> u64 {
        match self.get(name) {
            Value::Number(number) => *number,
            other => panic!("{name} is {other:?}"),
        }
    }

    pub fn list(&self, name: &str) -> &[Value] {
        match self.get(name) {
            Value::List(list) => list,
            other => panic!("{name} is {other:?}"),
        }
    }

    pub fn text(&self) -> &str {
        match self {
            Value::Text(text) => text,
            other => panic!("{other:?} is no text"),
        }
    }

    pub fn is(&self, name: &str) -> bool {
        *self.get(name) == Value::Bool(true)
    }
}

fn skip(rest: &mut &str, word: &str) -> bool {
    let after = rest.strip_prefix(word);
    *rest = after.unwrap_or(rest);
    after.is_some()
}

/// A block in the state of a store.
#[derive(Clone, Debug, PartialEq, Eq, PartialOrd, Ord)]
pub struct Shown {
    pub round: u64,
    pub author: u64,
    pub digest: String,
    pub state: String,
}

/// A running explorer.
pub struct Explorer {
    pub address: SocketAddr,
}

impl Explorer {
    pub fn start() -> Explorer {
        let listener = TcpListener::bind(("127.0.0.1", 0)).expect("a port");
        let address = listener.local_addr().expect("an address");
        let world = World::start().expect("four validators");
        thread::spawn(move || http::serve(&listener, move |request| site::answer(&world, request)));
        Explorer { address }
    }

    /// An explorer that is paused after a few rounds.
    pub fn paused() -> Explorer {
        let explorer = Explorer::start();
        explorer.act("pause", 0);
        explorer.step(3);
        explorer
    }

    /// The response to these bytes.
    pub fn exchange(&self, bytes: &[u8]) -> String {
        let mut stream = TcpStream::connect(self.address).expect("a connection");
        stream.set_read_timeout(Some(DEADLINE)).expect("a timeout");
        let _ = stream.write_all(bytes); // The server may answer before it read all.
        let _ = stream.shutdown(Shutdown::Write);
        let mut response = Vec::new();
        let _ = stream.read_to_end(&mut response);
        String::from_utf8(response).expect("a text")
    }

    /// The status and the body of the response to a request.
    pub fn ask(&self, method: &str, target: &str) -> (u32, String) {
        let response =
            self.exchange(format!("{method} {target} HTTP/1.1\r\nHost: it\r\n\r\n").as_bytes());
        let (head, body) = response.split_once("\r\n\r\n").expect("a head");
        let status = head.split(' ').nth(1).and_then(|word| word.parse().ok());
        (status.expect("a status"), body.into())
    }

    fn json(&self, method: &str, target: &str) -> Value {
        let (status, body) = self.ask(method, target);
        assert_eq!(status, 200, "{target}: {body}");
        Value::parse(&body)
    }

    pub fn act(&self, what: &str, validator: u64) {
        let did = self.json("POST", &format!("/do?what={what}&validator={validator}"));
        assert!(!did.get("did").text().is_empty());
    }

    pub fn step(&self, times: usize) {
        (0..times).for_each(|_| self.act("step", 0));
    }

    pub fn state(&self, store: u64) -> Value {
        self.json("GET", &format!("/state?store={store}"))
    }

    pub fn round(&self, store: u64) -> u64 {
        self.state(store).get("content").number("round")
    }

    pub fn block(&self, store: u64, digest: &str) -> Value {
        self.json("GET", &format!("/block?store={store}&digest={digest}"))
    }

    pub fn blocks(&self, store: u64) -> Vec<Shown> {
        let state = self.state(store);
        let shown = |block: &Value| Shown {
            round: block.number("round"),
            author: block.number("author"),
            digest: block.get("digest").text().into(),
            state: block.get("state").text().into(),
        };
        state
            .get("content")
            .list("blocks")
            .iter()
            .map(shown)
            .collect()
    }

    /// The blocks of a round and an author.
    pub fn slot(&self, store: u64, round: u64, author: u64) -> Vec<Shown> {
        let is_in = |shown: &Shown| (shown.round, shown.author) == (round, author);
        self.blocks(store).into_iter().filter(is_in).collect()
    }

    pub fn state_of(&self, store: u64, digest: &str) -> Option<String> {
        let found = self
            .blocks(store)
            .into_iter()
            .find(|shown| shown.digest == digest);
        found.map(|shown| shown.state)
    }

    /// The signers of a block's certificate.
    pub fn signers(&self, store: u64, digest: &str) -> Option<Vec<Value>> {
        match self.block(store, digest).get("signers") {
            Value::List(signers) => Some(signers.clone()),
            _ => None,
        }
    }

    /// The certified blocks that the store has not collected.
    pub fn certified(&self, store: u64) -> Vec<Shown> {
        let is_certified = |shown: &Shown| shown.state == "certified" || shown.state == "complete";
        self.blocks(store)
            .into_iter()
            .filter(is_certified)
            .collect()
    }
}
