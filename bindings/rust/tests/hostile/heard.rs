//! What a member that was away concludes from the answers of others, and what a log answers.

use crate::lab::Com;
use narwhal_store::{Digest, Limits, Store, Subject};
use narwhal_validator::{Checkpoint, Flow, Heard, Log, Request, promise};
use std::fs;
use std::path::PathBuf;

/// A log in a folder of its own.
struct Room(PathBuf);

impl Room {
    fn new(name: &str) -> Room {
        let folder = format!("narwhal-heard-{name}-{}", std::process::id());
        let folder = std::env::temp_dir().join(folder);
        fs::create_dir(&folder).expect("a folder");
        Room(folder)
    }

    fn open(&self) -> narwhal_validator::Opened {
        let paths = ["log", "copy"].map(|name| self.0.join(name));
        Log::open(paths.each_ref().map(PathBuf::as_path)).expect("a log")
    }

    /// The answer of a member with these records.
    fn standing(&self, records: &[Vec<u8>]) -> Vec<u8> {
        let mut log = self.open().log;
        for record in records {
            log.append(&record[..]);
            log.sync().expect("a disk");
        }
        let answer = log.answer(&Request::Standing).expect("a disk").remove(0);
        log.cut(&[], |_| false).expect("a disk");
        answer
    }
}

impl Drop for Room {
    fn drop(&mut self) {
        fs::remove_dir_all(&self.0).expect("a folder");
    }
}

fn checkpoint(round: u64, order: u8) -> Checkpoint {
    Checkpoint {
        leader: Subject {
            digest: Digest([7; 32]),
            round,
            author: 1,
        },
        garbage_round: round - 2,
        delivered: 3 * round,
        order: Digest([order; 32]),
    }
}

fn certificate(com: &Com, round: u64) -> Vec<u8> {
    let digest = Digest::of(&round.to_be_bytes());
    let of = Subject {
        digest,
        round,
        author: 2,
    };
    com.certificate(&of, &[0, 1, 2])
}

/// The newest one that more than the tolerated weight says. Nobody counts twice.
#[test]
fn a_checkpoint_needs_an_honest_member() {
    let (com, room) = (Com::new(4), Room::new("checkpoint"));
    let mut heard = Heard::new(&com.committee, 0);
    let records = |rounds: &[(u64, u8)]| {
        let record = |(round, order): &(u64, u8)| checkpoint(*round, *order).record();
        room.standing(&rounds.iter().map(record).collect::<Vec<_>>())
    };
    assert!(heard.hear(1, &records(&[(4, 0), (6, 0), (6, 0)])));
    assert_eq!(heard.checkpoint(), None);
    assert!(heard.hear(0, &records(&[(6, 0)])) && heard.hear(4, &records(&[(6, 0)])));
    assert_eq!(heard.checkpoint(), None, "it and strangers do not count");
    assert!(heard.hear(2, &records(&[(4, 0), (6, 1), (8, 0)])));
    assert_eq!(heard.checkpoint(), Some(checkpoint(4, 0)));
    assert!(heard.hear(3, &records(&[(6, 0), (8, 1)])));
    assert_eq!(heard.checkpoint(), Some(checkpoint(6, 0)));
    assert!(!heard.hear(1, b"A") && !heard.hear(1, &[b'A', 1, 0]));
}

/// The newest round that a quorum of the others shows by a certificate, and two more.
#[test]
fn a_member_without_its_log_waits_for_a_quorum_of_the_others() {
    let (com, room) = (Com::new(4), Room::new("waits"));
    let mut heard = Heard::new(&com.committee, 0);
    let nothing = room.standing(&[]);
    let [low, high] = [5, 9].map(|round| room.standing(&[certificate(&com, round)]));
    for from in [0, 1, 2, 2] {
        assert!(heard.hear(from, &nothing));
        assert_eq!(heard.signs_from(), None);
    }
    assert!(heard.hear(3, &nothing));
    assert_eq!(heard.signs_from(), Some(2));
    assert!(heard.hear(2, &low) && heard.hear(3, &high));
    assert_eq!(heard.signs_from(), Some(12));
    let mut forged = high;
    *forged.last_mut().expect("a signature") ^= 1;
    assert!(!heard.hear(1, &forged));
}

fn flow(com: &Com, window: u32) -> Flow {
    let limits = Limits {
        window,
        ..Limits::default()
    };
    let store = Store::new(&com.committee, limits).expect("a store");
    Flow::over(&store, store.session().expect("a session"), 0)
}

#[test]
fn a_log_answers_for_rounds_and_keeps_promises() {
    let (com, room) = (Com::new(4), Room::new("answers"));
    let block = |round| com.block(1, round, &[0, 1, 2].map(|at| (at, Digest([9; 32]))), &[]);
    let ((one, of_one), (two, of_two)) = (block(5), block(6));
    let records = [
        promise(u64::MAX),
        promise(5),
        one.clone(),
        certificate(&com, 5),
        checkpoint(7, 0).record(),
        two.clone(),
    ];
    // It keeps a window of rounds below the garbage round: here, one.
    let replayed = room.open().replay(&mut flow(&com, 1), false);
    let mut log = replayed.expect("a log");
    records.iter().for_each(|record| log.append(&record[..]));
    log.sync().expect("a disk");
    let mut round = log.answer(&Request::Round(5)).expect("a disk");
    round.sort();
    assert_eq!(round, [one.clone(), certificate(&com, 5)]);
    assert_eq!(log.answer(&Request::Of(of_one)).expect("a disk"), [one]);
    let mut again = flow(&com, 24);
    let opened = room.open();
    assert_eq!(opened.records, records);
    opened.replay(&mut again, false).expect("a log");
    assert_eq!(again.checkpoint(), checkpoint(7, 0));
    for of in [of_one, of_two] {
        let look = again.session().look(of.round, of.author);
        assert_eq!((look.first, look.garbage_round), (Some(of.digest), 5));
    }
    assert!(again.session().look(5, 2).certified.is_some());
    // What is of round 5 goes, but no promise: a later one holds.
    let last = checkpoint(9, 0).record();
    log.append(&last[..]);
    log.sync().expect("a disk");
    let [no, yes, _, _, _, two] = &records;
    assert_eq!(
        room.open().records,
        [&last, no, yes, two, &last].map(Vec::clone)
    );
    assert!(log.answer(&Request::Round(5)).expect("a disk").is_empty());
    let mut again = flow(&com, 24);
    room.open().replay(&mut again, false).expect("a log");
    assert_eq!(again.checkpoint(), checkpoint(9, 0));
    for request in [Request::Of(of_one), Request::Round(6), Request::Standing] {
        assert_eq!(Request::read(&request.bytes()), Some(request));
    }
}

/// The last promise counts, also after a crash.
#[test]
fn a_member_without_its_log_signs_nothing() {
    let (com, room) = (Com::new(4), Room::new("promises"));
    let makes_a_block = |is_lost| {
        let mut flow = flow(&com, 24);
        room.open().replay(&mut flow, is_lost).expect("a log");
        flow.next_block().expect("memory").is_some()
    };
    let mut log = room.open().log;
    for (round, makes) in [(1, false), (0, true), (u64::MAX, false), (0, true)] {
        log.append(promise(round));
        log.sync().expect("a disk");
        assert_eq!(makes_a_block(false), makes, "{round}");
    }
    assert!(!makes_a_block(true) && !makes_a_block(false));
}
