//! Measures how long the calls of a store take, how much of a validator's time goes into checks, and what more threads gain.
//!
//! ```text
//! cargo run --release --example embedded               committees of 4, 10 and 100 members, and the nodes
//! cargo run --release --example embedded -- nodes      the nodes only
//! cargo run --release --example embedded -- 20 30 504  one node: 20 members, 30 rounds, blocks of 504 transactions
//! cargo run --release --example embedded -- 10 100     10 members, 100 rounds
//! ```
//!
//! It needs python3 with the package `cryptography`: tests/corpus/make.py signs the messages into a temporary file. Each block has 16
//! transactions of 512 bytes, and each certificate has the fewest votes that reach the quorum.
//!
//! The nodes are those of `held/mod.rs`: committees of 4, 20 and 100 members, with blocks of 16 transactions (8 KB) and of 504 (258 KB). Each row has
//! the blocks and transactions that one core delivers in a second, the memory that the node holds at most, its longest call, and the longest
//! call in which its history restarted. Times are of the processor.
//!
//! One thread checks every message once. Then it plays the messages to new stores for a second or more. It writes, certifies and reads each
//! block. It reads one block of each round causally, and walks its ticket. The garbage round stays 20 rounds behind.
//!
//! Then `check_all` checks all messages with 1, 2, 4, .. threads, up to the number of cores. `gain` is the time of one thread divided by
//! that of these threads. `blocks/s` and `MB/s` say how many blocks, and bytes of their bodies, a node takes in a second: it checks the blocks
//! and certificates with these threads, and then makes the calls above in one thread.
//!
//! Finally, one thread calls a store, and then four threads do, each with a session of its own. `calls/s` is the sum of their calls in a second.

#[path = "../tests/corpus/records.rs"]
mod file;
mod held;

use narwhal_store::{CheckError, Checked, CheckedBlock, CheckedCertificate, Committee};
use narwhal_store::{Digest, Limits, Session, StepError, Store, TextFault};
use std::error::Error;
use std::path::Path;
use std::process::Command;
use std::sync::Barrier;
use std::sync::atomic::{AtomicUsize, Ordering};
use std::time::{Duration, Instant};
use std::{env, fs, hint, thread};

type Result<T> = std::result::Result<T, Box<dyn Error>>;

/// Members and rounds.
const LOADS: [[usize; 2]; 3] = [[4, 400], [10, 100], [100, 10]];
/// Members, rounds, and the transactions of a block.
const NODES: [[usize; 3]; 6] = [
    [4, 2_000, 16],
    [20, 350, 16],
    [100, 60, 16],
    [4, 100, 504],
    [20, 45, 504],
    [100, 44, 504],
];
/// The transactions of a block of the other loads.
const TRANSACTIONS: usize = 16;
const KEPT_ROUNDS: u64 = 20;
const LONG_ENOUGH: Duration = Duration::from_secs(1);
/// How many threads call one store, and the fewest calls that they make together.
const CALLERS: [usize; 2] = [1, 4];
const CALLS: usize = 200_000;

fn main() -> Result<()> {
    let words: Vec<_> = env::args().skip(1).collect();
    match &words[..] {
        [] => {
            LOADS.into_iter().try_for_each(measure)?;
            nodes()
        }
        [word] if word == "nodes" => nodes(),
        [members, rounds] => measure([members.parse()?, rounds.parse()?]),
        [members, rounds, count] => node([members.parse()?, rounds.parse()?, count.parse()?]),
        _ => Err("give no arguments, nodes, or members and rounds".into()),
    }
}

/// Runs each node in a process of its own, so that none uses the memory that another one freed.
fn nodes() -> Result<()> {
    held::print_heads();
    NODES.into_iter().try_for_each(|load| {
        let numbers = load.map(|number| number.to_string());
        let ran = Command::new(env::current_exe()?).args(numbers).status()?;
        ran.success().then_some(()).ok_or("a node failed".into())
    })
}

/// Runs a node of these members, rounds and transactions of a block, and prints its row.
fn node(load: [usize; 3]) -> Result<()> {
    let file = messages(load)?;
    let (committee, messages) = file::honest_messages(&file);
    held::run(&committee, &messages)
}

fn measure([members, rounds]: [usize; 2]) -> Result<()> {
    let file = messages([members, rounds, TRANSACTIONS])?;
    let mut load = Load::new(&file)?;
    let blocks = load.blocks.len();
    let body = load.blocks[blocks - 1].block().body().len();
    println!("\n{members} members, {rounds} rounds: {blocks} blocks, the last of {body} bytes");
    let (mut calls, mut plays, start) = (Calls::default(), 0, Instant::now());
    while start.elapsed() < LONG_ENOUGH {
        load.play(&mut calls)?;
        plays += 1;
    }
    println!(
        "{:18} {:>9} {:>10} {:>9} {:>9} {:>9}",
        "", "calls", "calls/s", "p50 us", "p99 us", "max us"
    );
    let of_blocks = load.block_checks.print("check block");
    let checks = of_blocks + load.certificate_checks.print("check certificate");
    let calls = calls.print() / plays;
    let signatures = checks.saturating_sub(load.digests + load.decoding);
    let share = |part: Duration| 100.0 * part.as_secs_f64() / (checks + calls).as_secs_f64();
    println!(
        "time: signatures {:.1} %, digests {:.1} %, decoding {:.1} %, calls of the store {:.1} %",
        share(signatures),
        share(load.digests),
        share(load.decoding),
        share(calls)
    );
    load.print_threads(calls)?;
    load.print_callers()
}

/// The signed messages, made by the script unless an earlier run left them.
fn messages(load: [usize; 3]) -> Result<Vec<u8>> {
    let numbers = load.map(|number| number.to_string());
    let file = env::temp_dir().join(format!("narwhal-load-{}.bin", numbers.join("-")));
    if !file.exists() {
        let script = Path::new(env!("CARGO_MANIFEST_DIR")).join("tests/corpus/make.py");
        let made = Command::new("python3")
            .arg(script)
            .arg("--load")
            .args(numbers)
            .arg(&file)
            .status()?;
        if !made.success() {
            return Err("tests/corpus/make.py failed".into());
        }
    }
    Ok(fs::read(file)?)
}

/// The messages of a committee with the times of their checks.
struct Load<'a> {
    committee: Committee,
    messages: Vec<&'a [u8]>,
    blocks: Vec<CheckedBlock>,
    certificates: Vec<CheckedCertificate>,
    block_checks: Times,
    certificate_checks: Times,
    /// The time that the digests of all bodies take, and the decoding of all messages.
    digests: Duration,
    decoding: Duration,
}

impl<'a> Load<'a> {
    fn new(file: &'a [u8]) -> Result<Load<'a>> {
        let mut records = file::records(file);
        let (_, keys) = records.next().ok_or("no committee")?;
        let committee = file::committee(keys);
        let (mut messages, mut blocks, mut certificates) = (Vec::new(), Vec::new(), Vec::new());
        let (mut block_checks, mut certificate_checks) = (Times::default(), Times::default());
        let (mut digests, mut decoding) = (Times::default(), Times::default());
        for (kind, record) in records {
            // The record of a block begins with its digest.
            let (times, message) = match kind {
                b'B' => (&mut block_checks, &record[32..]),
                _ => (&mut certificate_checks, record),
            };
            messages.push(message);
            match times.take(|| committee.check(message))? {
                Checked::Block(block) => {
                    let body = block.block().body();
                    digests.take(|| hint::black_box(Digest::of(&body)));
                    blocks.push(block);
                }
                Checked::Certificate(certificate) => certificates.push(certificate),
                Checked::Vote(_) => return Err("a vote".into()),
            }
            // A check finds a surplus byte only after the last field. So this check decodes the message, and does nothing else.
            let longer = [message, &[0]].concat();
            let fault = decoding.take(|| committee.check(&longer));
            assert!(matches!(fault, Err(CheckError::Text(TextFault::Trailing))));
        }
        Ok(Load {
            committee,
            messages,
            blocks,
            certificates,
            block_checks,
            certificate_checks,
            digests: digests.sum(),
            decoding: decoding.sum(),
        })
    }

    /// Plays all messages to a new store.
    fn play(&self, calls: &mut Calls) -> Result<()> {
        let store = Store::new(&self.committee, Limits::default())?;
        let mut session = store.session()?;
        for (block, certificate) in self.blocks.iter().zip(&self.certificates) {
            let subject = block.subject();
            calls.write.take(|| session.write(block).map(drop))?;
            calls
                .certify
                .take(|| session.certify(certificate).map(drop))?;
            calls
                .read
                .take(|| session.read(&subject.digest).map(drop))?;
            if subject.author == 0 {
                let answer = calls.causal.take(|| session.causal(&subject.digest))?;
                let ticket = answer.into_ticket()?;
                calls.walk.take(|| ticket.walk().map(drop))?;
                calls.collect.take(|| {
                    session
                        .collect(subject.round.saturating_sub(KEPT_ROUNDS))
                        .map(drop)
                })?;
            }
        }
        Ok(())
    }

    /// Prints a row for each number of threads. `calls` is the time of the calls for all messages.
    fn print_threads(&self, calls: Duration) -> Result<()> {
        println!(
            "{:18} {:>9} {:>10} {:>9} {:>9}",
            "", "checks/s", "gain", "blocks/s", "MB/s"
        );
        let bodies = self.blocks.iter().map(|block| block.block().body().len());
        let megabytes = bodies.sum::<usize>() as f64 / 1e6;
        let (mut alone, cores) = (None, thread::available_parallelism()?.get());
        for threads in (0..).map(|n| 1 << n).take_while(|it| *it <= cores) {
            let start = Instant::now();
            let checked = self.committee.check_all(&self.messages, threads);
            let checks = start.elapsed();
            assert!(checked.iter().all(|outcome| outcome.is_ok()));
            let (all, checks) = ((checks + calls).as_secs_f64(), checks.as_secs_f64());
            let alone = *alone.get_or_insert(checks);
            println!(
                "{:18} {:>9.0} {:>10.2} {:>9.0} {:>9.1}",
                format!("threads: {threads}"),
                self.messages.len() as f64 / checks,
                alone / checks,
                self.blocks.len() as f64 / all,
                megabytes / all
            );
        }
        Ok(())
    }
}

/// The calls of one thread on one item of a load.
type Call = fn(&mut Session, &CheckedBlock) -> std::result::Result<(), StepError>;

impl Load<'_> {
    /// Prints how many calls one thread makes in a second, and four threads together.
    fn print_callers(&self) -> Result<()> {
        println!("{:18} {:>10} {:>10}", "calls/s", "1 thread", "4 threads");
        let calls: [(&str, Call); 3] = [
            ("write", |session, block| session.write(block).map(drop)),
            ("read", |session, block| {
                session.read(&block.subject().digest).map(drop)
            }),
            ("causal", |session, block| {
                session.causal(&block.subject().digest).map(drop)
            }),
        ];
        for (name, call) in calls {
            let rate = |threads| self.rate(name == "write", threads, call);
            let [one, four] = CALLERS.map(rate);
            println!("{name:18} {:>10.0} {:>10.0}", one?, four?);
        }
        Ok(())
    }

    /// How many calls these threads make together in a second. A write is of a new block, whose certificate is there, and another call is for
    /// some stored block.
    fn rate(&self, is_write: bool, threads: usize, call: Call) -> Result<f64> {
        let (mut made, mut time) = (0, Duration::ZERO);
        while made < CALLS {
            let store = Store::new(&self.committee, Limits::default())?;
            let mut session = store.session()?;
            for certificate in &self.certificates {
                drop(session.certify(certificate)?);
            }
            let (stored, calls) = match is_write {
                true => (&[][..], self.blocks.len()),
                false => (&self.blocks[..], CALLS),
            };
            for block in stored {
                drop(session.write(block)?);
            }
            time += self.call_all(&store, threads, calls, call)?;
            made += calls;
        }
        Ok(made as f64 / time.as_secs_f64())
    }

    /// The time that these threads take together for so many calls.
    fn call_all(
        &self,
        store: &Store,
        threads: usize,
        calls: usize,
        call: Call,
    ) -> Result<Duration> {
        let (next, begin) = (AtomicUsize::new(0), Barrier::new(threads + 1));
        let work = |mut session: Session| {
            begin.wait();
            loop {
                let index = next.fetch_add(1, Ordering::Relaxed);
                if index >= calls {
                    return Ok::<_, StepError>(());
                }
                call(&mut session, &self.blocks[index % self.blocks.len()])?;
            }
        };
        let sessions: std::result::Result<Vec<_>, _> =
            (0..threads).map(|_| store.session()).collect();
        let sessions = sessions?.into_iter();
        thread::scope(|scope| {
            let callers: Vec<_> = sessions
                .map(|session| scope.spawn(|| work(session)))
                .collect();
            begin.wait();
            let start = Instant::now();
            for caller in callers {
                caller.join().expect("no caller panics")?;
            }
            Ok(start.elapsed())
        })
    }
}

#[derive(Default)]
struct Calls {
    write: Times,
    certify: Times,
    read: Times,
    causal: Times,
    walk: Times,
    collect: Times,
}

impl Calls {
    /// Prints a row for each kind of call, and returns the time of all of them.
    fn print(self) -> Duration {
        let rows = [
            ("write", self.write),
            ("certify", self.certify),
            ("read", self.read),
            ("causal", self.causal),
            ("walk", self.walk),
            ("collect", self.collect),
        ];
        rows.into_iter()
            .map(|(name, mut times)| times.print(name))
            .sum()
    }
}

/// How long calls of one kind took.
#[derive(Default)]
struct Times(Vec<Duration>);

impl Times {
    fn take<R>(&mut self, call: impl FnOnce() -> R) -> R {
        let start = Instant::now();
        let answer = call();
        self.0.push(start.elapsed());
        answer
    }

    fn sum(&self) -> Duration {
        self.0.iter().sum()
    }

    /// Prints a row, and returns the time of all calls.
    fn print(&mut self, name: &str) -> Duration {
        self.0.sort_unstable();
        let (calls, whole) = (self.0.len(), self.sum());
        let at = |percent: usize| 1e6 * self.0[(calls - 1) * percent / 100].as_secs_f64();
        let each_second = calls as f64 / whole.as_secs_f64();
        println!(
            "{name:18} {calls:>9} {each_second:>10.0} {:>9.2} {:>9.2} {:>9.2}",
            at(50),
            at(99),
            at(100)
        );
        whole
    }
}
