//! Four validators, each a process. One is killed, and comes back with its log. Then it is killed again, and comes back without it.

use crate::node::Result;
use std::collections::BTreeMap;
use std::io::{BufRead, BufReader};
use std::net::TcpListener;
use std::path::PathBuf;
use std::process::{Child, Command, Stdio};
use std::sync::mpsc::{Receiver, Sender, channel};
use std::time::Duration;
use std::{env, fs, process, thread};

const MEMBERS: usize = 4;
/// The member that is away.
const AWAY: usize = 3;
/// How many blocks the others deliver meanwhile: about three a round.
const SHORT: u64 = 30;
const LONG: u64 = 600;
const PATIENCE: Duration = Duration::from_secs(60);

/// A member, and the number and the name of a block that it delivered.
type Delivered = (usize, u64, String);

struct Four {
    folder: PathBuf,
    addresses: Vec<String>,
    processes: Vec<Option<Child>>,
    lines: Sender<Delivered>,
    delivered: Receiver<Delivered>,
    /// The order, and the last number of each member.
    order: BTreeMap<u64, String>,
    last: [u64; MEMBERS],
}

pub fn run() -> Result<()> {
    let (lines, delivered) = channel();
    let listeners: std::io::Result<Vec<_>> = (0..MEMBERS)
        .map(|_| TcpListener::bind("127.0.0.1:0"))
        .collect();
    let address = |listener: &TcpListener| Ok(listener.local_addr()?.to_string());
    let addresses: Result<Vec<_>> = listeners?.iter().map(address).collect();
    let mut four = Four {
        folder: env::temp_dir().join(format!("narwhal-validator-{}", process::id())),
        addresses: addresses?,
        processes: (0..MEMBERS).map(|_| None).collect(),
        lines,
        delivered,
        order: BTreeMap::new(),
        last: [0; MEMBERS],
    };
    let ran = four.play();
    for process in four.processes.iter_mut().flatten() {
        process.kill()?;
        process.wait()?;
    }
    fs::remove_dir_all(&four.folder)?;
    ran
}

impl Four {
    fn play(&mut self) -> Result<()> {
        (0..MEMBERS).try_for_each(|member| self.start(member, false))?;
        self.deliver(100)?;
        println!("four validators delivered 100 blocks in one order");
        for (blocks, is_lost) in [(SHORT, false), (LONG, false), (SHORT, true), (LONG, true)] {
            self.kill(AWAY)?;
            if is_lost {
                fs::remove_dir_all(self.folder.join(AWAY.to_string()))?;
            }
            let end = self.last.iter().max().unwrap_or(&0) + blocks;
            self.deliver(end)?;
            self.start(AWAY, is_lost)?;
            self.deliver(end + 60)?;
            let log = if is_lost { "without" } else { "with" };
            println!("one was away for {blocks} blocks, and came back {log} its log");
        }
        println!("all orders are equal: yes");
        Ok(())
    }

    fn start(&mut self, member: usize, is_lost: bool) -> Result<()> {
        let mut command = Command::new(env::current_exe()?);
        command.arg(self.folder.join(member.to_string()));
        command.arg(member.to_string()).args(&self.addresses);
        command.args(is_lost.then_some("lost"));
        let mut process = command.stdout(Stdio::piped()).spawn()?;
        let pipe = process.stdout.take().ok_or("no pipe")?;
        let lines = self.lines.clone();
        thread::spawn(move || {
            for line in BufReader::new(pipe).lines().map_while(std::io::Result::ok) {
                let (number, block) = line.split_once(' ')?;
                lines
                    .send((member, number.parse().ok()?, block.into()))
                    .ok()?;
            }
            Some(())
        });
        self.processes[member] = Some(process);
        Ok(())
    }

    fn kill(&mut self, member: usize) -> Result<()> {
        if let Some(mut process) = self.processes[member].take() {
            process.kill()?;
            process.wait()?;
        }
        Ok(())
    }

    /// Waits until all that run delivered this many blocks, and compares the orders.
    fn deliver(&mut self, most: u64) -> Result<()> {
        let is_behind = |four: &Four| {
            let mut members = four.processes.iter().zip(four.last);
            members.any(|(process, last)| process.is_some() && last < most)
        };
        while is_behind(self) {
            let (member, number, block) = self.delivered.recv_timeout(PATIENCE)?;
            let first = self.order.entry(number).or_insert_with(|| block.clone());
            if *first != block {
                return Err(format!("member {member} delivered {block} for {first}").into());
            }
            self.last[member] = number;
        }
        Ok(())
    }
}
