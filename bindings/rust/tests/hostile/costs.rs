//! The time of each call under attack: no call looks at more than docs/OPERATING.md says (The longest calls).
//!
//! The bound of a call is `FACTOR` looks at a slot for each thing that it looks at. The store has 9,000 blocks. A call that visits all of
//! them exceeds its bound, and so does a call that visits all of them for each block that it completes or drops. The measured time is
//! that for which the thread ran, because other programs hardly change it.

use crate::lab::Com;
use narwhal_store::{Checked, CheckedBlock, CheckedCertificate, Digest, Limits, Session};
use narwhal_store::{Status, Store, Subject};
use std::hint::black_box;
use std::ops::Range;

/// The most looks for each thing. The calls took at most 5.
const FACTOR: f64 = 30.0;
/// A call that changes nothing counts as this many things.
const CALL: u64 = 4;
const REPEATS: u64 = 1_000;

const MEMBERS: u16 = 10;
/// The members from this one on are faulty: nobody made the parents of their blocks.
const HONEST: u16 = 7;
/// The first round with blocks. Nobody made their parents.
const FIRST: u64 = 100;
/// The rounds of one of three parts. No block of a part is complete before something arrives that the part's first round lacks.
const PART: u64 = 300;
const ROUNDS: Range<u64> = FIRST..FIRST + 3 * PART;

/// A block with its parents, or with the blocks that wait for it.
const BLOCK: u64 = 1 + MEMBERS as u64;
/// A new block. Each parent is looked up, and then noted as missing.
const NEW_BLOCK: u64 = BLOCK + MEMBERS as u64;
/// The blocks of a part that can become complete.
const COMPLETE: u64 = PART * HONEST as u64;

/// The nanoseconds for which this thread ran. `/proc/thread-self/schedstat` tells only those until the last tick.
pub fn thread_time() -> f64 {
    #[repr(C)]
    struct Timespec {
        seconds: i64,
        nanos: i64,
    }
    unsafe extern "C" {
        safe fn clock_gettime(clock: i32, time: &mut Timespec) -> i32;
    }
    const CLOCK_THREAD_CPUTIME_ID: i32 = 3;
    let (seconds, nanos) = (0, 0);
    let mut time = Timespec { seconds, nanos };
    assert_eq!(clock_gettime(CLOCK_THREAD_CPUTIME_ID, &mut time), 0);
    1e9 * time.seconds as f64 + time.nanos as f64
}

/// Parents that nobody made.
fn made_up(round: u64) -> Vec<(u16, Digest)> {
    let digest = |author| Digest::of(&[round, u64::from(author)].map(u64::to_be_bytes).concat());
    (0..MEMBERS)
        .map(|author| (author, digest(author)))
        .collect()
}

/// The things by which the counts of a store changed: blocks that were dropped or became complete, and dropped certificates.
fn changed(before: &Status, after: &Status) -> u64 {
    let dropped = before.blocks.saturating_sub(after.blocks);
    let completed = (after.complete + dropped).saturating_sub(before.complete);
    let certificates = before.certificates.saturating_sub(after.certificates);
    (dropped + completed) * BLOCK + certificates
}

/// A store with one session. Member 0 has the weight of a quorum, so its vote is a certificate.
struct Costs {
    com: Com,
    store: Store,
    session: Session,
}

impl Costs {
    fn new() -> Costs {
        let weight = |member| if member == 0 { 100 } else { 1 };
        let com = Com::weighted(&(0..MEMBERS).map(weight).collect::<Vec<u32>>());
        let limits = Limits {
            window: 1_024,
            ..Limits::MAX
        };
        let builder = Store::builder(&com.committee).limits(limits);
        let store = builder.never_restart().open().unwrap();
        Costs {
            session: store.session().unwrap(),
            store,
            com,
        }
    }

    fn block(&self, author: u16, round: u64, parents: &[(u16, Digest)]) -> CheckedBlock {
        let (message, _) = self.com.block(author, round, parents, &[]);
        match self.com.committee.check(&message) {
            Ok(Checked::Block(block)) => block,
            other => panic!("no block, but {other:?}"),
        }
    }

    fn certificate(&self, subject: &Subject) -> CheckedCertificate {
        let message = self.com.certificate(subject, &[0]);
        match self.com.committee.check(&message) {
            Ok(Checked::Certificate(certificate)) => certificate,
            other => panic!("no certificate, but {other:?}"),
        }
    }

    /// A block of each member for each round, and certificates for those of the honest members.
    fn messages(&self) -> (Vec<CheckedBlock>, Vec<CheckedCertificate>) {
        let (mut blocks, mut certificates) = (Vec::new(), Vec::new());
        let mut parents = made_up(FIRST);
        for round in ROUNDS {
            let unmet = made_up(round);
            for author in HONEST..MEMBERS {
                blocks.push(self.block(author, round, &unmet));
            }
            let block = |author| self.block(author, round, &parents);
            let honest: Vec<_> = (0..HONEST).map(block).collect();
            let subjects: Vec<_> = honest.iter().map(CheckedBlock::subject).collect();
            blocks.extend(honest);
            certificates.extend(subjects.iter().map(|subject| self.certificate(subject)));
            parents = subjects.iter().map(|of| (of.author, of.digest)).collect();
        }
        (blocks, certificates)
    }

    fn status(&mut self) -> Status {
        *self.session.status().unwrap().reply()
    }

    /// The nanoseconds of a look at a slot, in the best of five batches.
    fn look(&mut self) -> f64 {
        let slots = || ROUNDS.flat_map(|round| (0..MEMBERS).map(move |author| (round, author)));
        let batch = |_| {
            let start = thread_time();
            for (round, author) in slots() {
                black_box(self.session.look(round, author));
            }
            (thread_time() - start) / slots().count() as f64
        };
        (0..5).map(batch).fold(f64::INFINITY, f64::min)
    }

    /// Compares the time of these calls with the things that they look at: these, and those by which the store's counts change.
    fn compare<A>(
        &mut self,
        what: &str,
        calls: u64,
        things: u64,
        run: impl FnOnce(&mut Session) -> A,
    ) {
        let before = self.status();
        let start = thread_time();
        drop(run(&mut self.session));
        let time = thread_time() - start;
        let things = CALL * calls + things + changed(&before, &self.status());
        let look = self.look();
        let looks = time / look / things as f64;
        let found = format!("{looks:.2} looks of {look:.0} ns for each of {things} things: {what}");
        println!("{found}");
        assert!(looks <= FACTOR, "{found}");
    }

    /// Compares 500 calls at a time.
    fn each<T, A>(
        &mut self,
        what: &str,
        of: &[T],
        things: u64,
        call: impl Fn(&mut Session, &T) -> A,
    ) {
        for some in of.chunks(500) {
            let calls = some.len() as u64;
            self.compare(what, calls, calls * things, |session| {
                some.iter().for_each(|one| drop(call(session, one)));
            });
        }
    }

    /// Compares a call that changes no count.
    fn repeat<A>(&mut self, what: &str, things: u64, call: impl Fn(&mut Session) -> A) {
        let before = self.status();
        self.compare(what, REPEATS, REPEATS * things, |session| {
            (0..REPEATS).for_each(|_| drop(call(session)));
        });
        assert_eq!(self.status(), before, "{what}");
    }

    /// Calls that change nothing, with a stored block and a stored certificate.
    fn unchanging(&mut self, block: &CheckedBlock, certificate: &CheckedCertificate) {
        let Subject {
            digest,
            round,
            author,
        } = block.subject();
        let twin = self.block(author, round, &made_up(0));
        let far = self.block(author, 2_000, &made_up(0));
        self.repeat("write a stored block", 0, |one| one.write(block));
        self.repeat("write a twin", 0, |one| one.write(&twin));
        self.repeat("write a far block", 0, |one| one.write(&far));
        self.repeat("certify again", 0, |one| one.certify(certificate));
        self.repeat("certificate", 0, |one| one.certificate(&digest));
        self.repeat("read", 0, |one| one.read(&digest));
        self.repeat("causal", 0, |one| one.causal(&digest));
        self.repeat("collect a lower round", 0, |one| one.collect(0));
        self.repeat("missing", 10, |one| one.missing(10));
        self.repeat("status", 0, |one| one.status());
    }
}

#[test]
fn no_call_takes_more_look_ups_than_its_bound() {
    let mut costs = Costs::new();
    let (mut blocks, mut certificates) = costs.messages();
    let (honest, members) = (u64::from(HONEST), u64::from(MEMBERS));
    // Of the last honest member: in the first round of the second part, and in that of the third one.
    let late_certificate = certificates.remove(((PART + 1) * honest) as usize - 1);
    let late_block = blocks.remove(((2 * PART + 1) * members) as usize - 1);
    costs.each("write", &blocks, NEW_BLOCK, Session::write);
    costs.each("certify", &certificates, 0, Session::certify);
    assert_eq!(costs.status().blocks, 3 * PART * members - 1);
    let last = &blocks[blocks.len() - 1];
    costs.unchanging(last, &certificates[0]);
    assert_eq!(costs.status().complete, 0);

    costs.compare("collect empty rounds", FIRST - 1, 0, |session| {
        (1..FIRST).for_each(|round| drop(session.collect(round)));
    });
    // The blocks and certificates of the new garbage round.
    let of_round = members * BLOCK + honest;
    costs.compare("collect", 1, of_round, |one| one.collect(FIRST));
    // In the first rounds of the other parts, all blocks but one are complete.
    assert_eq!(costs.status().complete, COMPLETE + honest - 1);
    let certify = |one: &mut Session| one.certify(&late_certificate);
    costs.compare("certify a withheld certificate", 1, 0, certify);
    assert_eq!(costs.status().complete, 2 * COMPLETE + honest - 1);
    let write = |one: &mut Session| one.write(&late_block);
    costs.compare("write a withheld block", 1, NEW_BLOCK, write);
    assert_eq!(costs.status().complete, 3 * COMPLETE);

    let causal = |one: &mut Session| one.causal(&last.subject().digest);
    costs.compare("the first causal", 1, 3 * COMPLETE, causal);
    costs.unchanging(last, &certificates[0]);
    costs.compare("collect a part", 1, of_round, |one| {
        one.collect(FIRST + PART)
    });
    assert_eq!(costs.status().complete, 2 * COMPLETE);
    // Each block and certificate is copied and freed, with the entry of its slot. The history is freed too.
    let status = costs.status();
    let things = 4 * (status.blocks + status.certificates) + costs.store.events() as u64;
    costs.compare("restart", 1, things, |one| one.restart().unwrap());
}
