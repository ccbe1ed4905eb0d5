//! A validator over TCP, which survives its crashes, and four of them.
//!
//! ```text
//! cargo run --release --example validator                                  four validators, of which one is killed and comes back
//! cargo run --release --example validator -- FOLDER 0 ADDRESS ADDRESS ..   member 0, with the addresses of all; its log is in FOLDER
//! cargo run --release --example validator -- FOLDER 0 ADDRESS .. lost      the same, after its log was lost or replaced by an older one
//! ```
//!
//! A member prints a line `number round.author` for each delivered block. The members sign with the demonstration signer of `tests/lab`, whose
//! secrets are public. A real network also shows who the peer of a connection is.

mod decide;
mod four;
#[path = "../../tests/lab/mod.rs"]
mod lab;
mod node;

use narwhal_store::Limits;
use node::{Node, Result};
use std::io::{Read, Write, stdout};
use std::net::{TcpListener, TcpStream};
use std::os::unix::process::parent_id;
use std::path::Path;
use std::sync::mpsc::{Sender, SyncSender, channel, sync_channel};
use std::time::{Duration, Instant};
use std::{env, fs, iter, thread};

/// The time between two turns of a member, and between two ticks.
const PACE: Duration = Duration::from_millis(2);
const TICK: Duration = Duration::from_millis(100);
/// How many packets wait for a peer that does not read. Further ones are lost.
const WAITING: usize = 4_096;
/// The longest packet.
const LONGEST: usize = 1 << 21;

fn main() -> Result<()> {
    let arguments: Vec<String> = env::args().skip(1).collect();
    match &arguments.iter().map(String::as_str).collect::<Vec<_>>()[..] {
        [] => four::run(),
        [folder, me, addresses @ .., "lost"] => run(folder, me.parse()?, addresses, true),
        [folder, me, addresses @ ..] => run(folder, me.parse()?, addresses, false),
        _ => Err("give no argument, or a folder, a number and all addresses".into()),
    }
}

/// Runs a member until the program that started it ends.
fn run(folder: &str, me: u16, addresses: &[&str], is_lost: bool) -> Result<()> {
    fs::create_dir_all(folder)?;
    let log = ["log", "copy"].map(|name| Path::new(folder).join(name));
    let com = lab::Com::new(addresses.len() as u16);
    let committee = com.committee.clone();
    let limits = Limits {
        window: 64,
        ..Limits::default()
    };
    let sign = Box::new(move |text: &[u8]| com.sign(me, text));
    let mut node = Node::open(&committee, me, limits, log, is_lost, sign)?;
    let listener = TcpListener::bind(addresses[usize::from(me)])?;
    let (inbox, received) = channel();
    thread::spawn(move || listen(&listener, &inbox));
    let peers: Vec<_> = addresses.iter().map(|to| connect(me, to)).collect();
    let (parent, mut ticked) = (parent_id(), Instant::now());
    while parent_id() == parent {
        thread::sleep(PACE);
        let is_tick = ticked.elapsed() >= TICK;
        ticked = if is_tick { Instant::now() } else { ticked };
        let out = node.turn(received.try_iter(), &[vec![me as u8; 20]], is_tick)?;
        for (number, block) in out.delivered {
            writeln!(stdout(), "{number} {}.{}", block.round(), block.author())?;
        }
        for (to, packet) in out.sent {
            drop(peers[usize::from(to)].try_send(packet));
        }
    }
    Ok(())
}

/// Sends packets to a peer, each after its length in 4 bytes. The first one is the number of the sender.
fn connect(me: u16, address: &str) -> SyncSender<Vec<u8>> {
    let (sender, packets) = sync_channel::<Vec<u8>>(WAITING);
    let address = address.to_string();
    thread::spawn(move || {
        loop {
            if let Ok(mut stream) = TcpStream::connect(&address) {
                let send = |packet: Vec<u8>| {
                    let length = (packet.len() as u32).to_be_bytes();
                    stream.write_all(&[&length, &packet[..]].concat()).is_ok()
                };
                let first = iter::once(me.to_be_bytes().to_vec());
                let _ = first.chain(packets.iter()).all(send);
            }
            thread::sleep(TICK);
            packets.try_iter().for_each(drop); // They are old.
        }
    });
    sender
}

/// Receives what all peers send.
fn listen(listener: &TcpListener, inbox: &Sender<(u16, Vec<u8>)>) {
    for stream in listener.incoming().flatten() {
        let inbox = inbox.clone();
        thread::spawn(move || {
            let from = receive(&stream)?.try_into().ok()?;
            let packets = iter::from_fn(|| receive(&stream));
            let mut sent = packets.map(|it| inbox.send((u16::from_be_bytes(from), it)));
            sent.find(std::result::Result::is_err)
        });
    }
}

fn receive(mut stream: &TcpStream) -> Option<Vec<u8>> {
    let mut length = [0; 4];
    stream.read_exact(&mut length).ok()?;
    let length = u32::from_be_bytes(length) as usize;
    let mut packet = vec![0; length.min(LONGEST)];
    stream.read_exact(&mut packet).ok()?;
    (packet.len() == length).then_some(packet)
}
