//! What a node of one thread takes: the processor time of its checks and calls, and its memory.

use narwhal_store::{Checked, Committee, Limits, Session, Store, Subject, Ticket};
use std::error::Error;
use std::fs;

type Result<T> = std::result::Result<T, Box<dyn Error>>;

/// How far the garbage round stays behind, and how often the node compacts its store, in rounds.
const KEPT_ROUNDS: u64 = 20;

/// The seconds for which this thread ran: other programs hardly change them.
fn thread_time() -> f64 {
    #[repr(C)]
    struct Timespec {
        seconds: i64,
        nanos: i64,
    }
    unsafe extern "C" {
        safe fn clock_gettime(clock: i32, time: &mut Timespec) -> i32;
    }
    const CLOCK_THREAD_CPUTIME_ID: i32 = 3;
    let (seconds, nanos) = (0, 0);
    let mut time = Timespec { seconds, nanos };
    assert_eq!(clock_gettime(CLOCK_THREAD_CPUTIME_ID, &mut time), 0);
    time.seconds as f64 + 1e-9 * time.nanos as f64
}

/// The megabytes of this process in memory.
fn resident() -> Result<f64> {
    let status = fs::read_to_string("/proc/self/status")?;
    let line = status.lines().find_map(|line| line.strip_prefix("VmRSS:"));
    let words = line.and_then(|line| line.split_whitespace().next());
    Ok(1.024e-3 * words.ok_or("no VmRSS")?.parse::<f64>()?)
}

/// A node, and what it took so far.
struct Node {
    store: Store,
    session: Session,
    last: Option<Ticket>,
    blocks: usize,
    transactions: usize,
    /// The seconds of the longest call, and of the longest one in which the history restarted.
    longest: f64,
    restart: f64,
}

/// Runs a node over the messages of a committee, and prints a row. The node checks each message and drops it after its call. It delivers the
/// blocks of each round, and then raises the garbage round.
pub fn run(committee: &Committee, messages: &[&[u8]]) -> Result<()> {
    let store = Store::new(committee, Limits::default())?;
    let mut node = Node {
        session: store.session()?,
        store,
        last: None,
        blocks: 0,
        transactions: 0,
        longest: 0.0,
        restart: 0.0,
    };
    let (before, start) = (resident()?, thread_time());
    let (mut most, mut body) = (before, 0);
    for message in messages {
        body = body.max(message.len());
        let is_last = node.take(committee, message)?;
        most = if is_last { most.max(resident()?) } else { most };
    }
    let time = thread_time() - start;
    drop(node.time(|node| Ok(node.session.restart()?))?);
    println!(
        "{:>7} {body:>8} {:>9.0} {:>15.0} {:>8.0} {:>16.2} {:>11.2}",
        committee.size(),
        node.blocks as f64 / time,
        node.transactions as f64 / time,
        most - before,
        1e3 * node.longest,
        1e3 * node.restart
    );
    Ok(())
}

/// Prints the heads of the rows.
pub fn print_heads() {
    println!(
        "\n{:>7} {:>8} {:>9} {:>15} {:>8} {:>16} {:>11}",
        "members",
        "bytes",
        "blocks/s",
        "transactions/s",
        "MB held",
        "longest call ms",
        "restart ms"
    );
}

impl Node {
    /// Checks a message and makes its call. Returns whether a round was delivered.
    fn take(&mut self, committee: &Committee, message: &[u8]) -> Result<bool> {
        match committee.check(message)? {
            Checked::Block(block) => {
                drop(self.time(|node| Ok(node.session.write(&block)?))?);
                Ok(false)
            }
            Checked::Certificate(certificate) => {
                drop(self.time(|node| Ok(node.session.certify(&certificate)?))?);
                let subject = certificate.subject();
                let is_leader = subject.author == 0;
                is_leader.then(|| self.deliver(&subject)).transpose()?;
                Ok(is_leader)
            }
            Checked::Vote(_) => Err("a vote".into()),
        }
    }

    /// Delivers the new ancestors of a leader, and collects old rounds.
    fn deliver(&mut self, leader: &Subject) -> Result<()> {
        let ticket = self.time(|node| Ok(node.session.causal(&leader.digest)?))?;
        let ticket = ticket.into_ticket()?;
        let new = match &self.last {
            Some(earlier) => ticket.walk_after(earlier)?,
            None => ticket.walk()?.collect(),
        };
        self.blocks += new.len();
        let transactions = new.iter().map(|block| block.transactions().count());
        self.transactions += transactions.sum::<usize>();
        self.last = Some(ticket);
        let floor = leader.round.saturating_sub(KEPT_ROUNDS);
        drop(self.time(|node| Ok(node.session.collect(floor)?))?);
        if leader.round % KEPT_ROUNDS == 0 {
            self.time(|node| Ok(node.store.compact()?))?;
        }
        Ok(())
    }

    /// Makes a call and keeps its time, if it is the longest.
    fn time<R>(&mut self, call: impl FnOnce(&mut Node) -> Result<R>) -> Result<R> {
        let (events, start) = (self.store.events(), thread_time());
        let made = call(self)?;
        let time = thread_time() - start;
        let longest = match self.store.events() < events {
            true => &mut self.restart,
            false => &mut self.longest,
        };
        *longest = longest.max(time);
        Ok(made)
    }
}
