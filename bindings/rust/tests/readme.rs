//! The code in README.md compiles, and runs over the messages of the examples. `.ci/quotes` compares the two texts.

#[path = "../examples/data/mod.rs"]
mod data;

use narwhal_store::{Causal, Checked, Committee, Gather, Limits};
use narwhal_store::{Store, Subject, Transactions, WriteReply, text_of_vote};
use std::error::Error;
use std::thread;

/// The last subject that gets a certificate, and the messages: blocks, certificates and votes.
fn network(keys: &[narwhal_store::PublicKey]) -> (Subject, Vec<Vec<u8>>) {
    let committee = Committee::equal(keys).expect("a committee");
    let (mut messages, mut last) = (data::values("message"), None);
    for message in &messages {
        if let Ok(Checked::Certificate(certificate)) = committee.check(message) {
            last = Some(certificate.subject());
        }
    }
    messages.extend(data::values("vote"));
    messages.push(b"no message".to_vec());
    (last.expect("a certificate"), messages)
}

#[test]
#[rustfmt::skip]
#[allow(unused_variables)] // The README leaves the signing to its reader.
fn the_code_of_the_readme_runs() -> Result<(), Box<dyn Error>> {
    let keys = data::keys();
    let (last, network) = network(&keys);
    let (leader, garbage_round) = (last.digest, 1);
    let (mut voted, mut sent, mut delivered) = (0, Vec::new(), 0);
    let mut vote = |_: [u8; 44]| voted += 1;
    let mut broadcast = |message: Vec<u8>| sent.push(message);
    let mut deliver = |transactions: Transactions| delivered += transactions.count();
    let mut gather = Gather::new(&Committee::equal(&keys)?, &subject_of_votes(&keys))?;
    let mut is_sent = false;

    let committee = Committee::equal(&keys)?;             // Ed25519 public keys, each of weight 1
    let store = Store::new(&committee, Limits::default())?;
    let mut session = store.session()?;

    for bytes in network {
        match committee.check(&bytes) {                   // verifies the signatures of blocks and certificates
            Ok(Checked::Block(block)) => {
                let first = WriteReply::Stored { vote: true }; // of its round and author
                let reply = session.write(&block)?.into_reply();
                let missing = session.missing_of(&block.subject().digest)?.into_reply();
                if reply == first && missing == Some(vec![]) { // if not, vote when the last parent arrives
                    vote(text_of_vote(&block.subject())?);    // log the block, sync, sign the text, send the vote
                }
            }
            Ok(Checked::Certificate(certificate)) => {
                let reply = session.certify(&certificate)?.into_reply(); // log `Certified`
            }
            Ok(Checked::Vote(vote)) => {                  // for your own block: `add` verifies the signature
                if gather.add(&vote) == Ok(true) && !is_sent {
                    broadcast(gather.certificate()?.message());
                    is_sent = true;                       // later votes are counted too
                }
            }
            Err(_) => {}                                  // drop a bad message, and go on
        }
    }

    if let Causal::Ready(ticket) = session.causal(&leader)? { // a snapshot
        for block in ticket.walk()? {
            deliver(block.transactions());
        }
    }
    let reply = session.collect(garbage_round)?.into_reply(); // log `Raised`

    assert!(voted > 0 && delivered > 0, "{voted} votes, {delivered} transactions");
    assert_eq!(sent.len(), 1, "one certificate");
    Ok(())
}

/// The subject that the votes of the examples are for.
fn subject_of_votes(keys: &[narwhal_store::PublicKey]) -> Subject {
    let committee = Committee::equal(keys).expect("a committee");
    match committee.check(&data::values("vote")[0]) {
        Ok(Checked::Vote(vote)) => vote.subject(),
        other => panic!("{other:?}"),
    }
}

#[test]
fn the_threads_of_the_readme_settle() -> Result<(), Box<dyn Error>> {
    let store = Store::new(&Committee::equal(&data::keys())?, Limits::default())?;
    let rounds = 0..3;

    let sessions = [store.session()?, store.session()?];
    let threads = sessions.map(|mut session| {
        let rounds = rounds.clone();
        thread::spawn(move || {
            let answers: Vec<_> = rounds.map(|round| session.collect(round)).collect();
            (session, answers)
        })
    });
    let joined = threads.map(|thread| thread.join().unwrap());
    let (sessions, answers): (Vec<_>, Vec<_>) = joined.into_iter().unzip();

    let settled = Store::settle(sessions)?;
    for answer in answers.into_iter().flatten() {
        assert!(answer?.history().is_prefix_of(settled.history()));
    }
    assert_eq!(settled.history().events().count(), 6);
    Ok(())
}
