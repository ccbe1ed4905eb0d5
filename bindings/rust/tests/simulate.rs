//! Runs stores in a bad network and compares every answer with a model.
//!
//! A seed determines the limits, and the order in which each store gets the signed messages of `tests/corpus`. Messages come late, are
//! lost, or come twice. Stores collect garbage, restart their histories, crash, and replay their logs. After each call the reply, the vote
//! and the history must be those of the model in `tests/model`.
//!
//! Another test runs threads that call one store at the same time. The answers of all threads must be those of the model, in one order.
//!
//! ```text
//! cargo test --release --test simulate                    200 seeds
//! SEED=17 cargo test --release --test simulate            one seed, which a failure prints
//! SEEDS=100000 cargo test --release --test simulate       the first 100,000 seeds
//! ```

mod model;
mod simulator;

use model::{Call, Certificate};
use narwhal_store::{CheckError, Checked, Gather, GatherError, TextFault};
use simulator::{Case, Draw, Plan, Tally, World, code_of, corpus, subject_of, threads, votes_of};
use std::ops::Range;

/// Prints the seed if its run fails.
struct Named(u64);

impl Drop for Named {
    fn drop(&mut self) {
        if std::thread::panicking() {
            eprintln!(
                "the simulation of seed {0} failed: run it alone with SEED={0}",
                self.0
            );
        }
    }
}

fn number_of(variable: &str) -> Option<u64> {
    std::env::var(variable)
        .ok()
        .map(|value| value.parse().expect("a number of seeds"))
}

/// The seeds to run.
fn seeds() -> Range<u64> {
    match (number_of("SEED"), number_of("SEEDS")) {
        (Some(seed), _) => seed..seed + 1,
        (None, most) => 0..most.unwrap_or(200),
    }
}

/// Prints how often each case was met. 200 seeds must meet each of these.
fn judge(seeds: &Range<u64>, seen: Tally, must_be_met: &[&str]) {
    let (rows, count) = (seen.into_rows(), seeds.end - seeds.start);
    println!("{count} seeds passed");
    rows.iter()
        .for_each(|(what, times)| println!("{times:>9} {what}"));
    let is_met = |row: &&&str| rows.contains_key(**row);
    let missed: Vec<_> = must_be_met.iter().filter(|row| !is_met(row)).collect();
    assert!(count < 200 || missed.is_empty(), "no seed met {missed:?}");
}

#[test]
fn every_answer_is_the_models() {
    let (cases, seen) = (corpus(), Tally::default());
    for seed in seeds() {
        let named = Named(seed);
        let mut draw = Draw::new(seed);
        let (case, other) = if draw.chance(50) {
            (&cases[0], &cases[1])
        } else {
            (&cases[1], &cases[0])
        };
        let plan = Plan::new(&mut draw, case.committee.size() as u64, &seen);
        World::new(case, other, &plan, draw).run();
        drop(named);
    }
    judge(&seeds(), seen, &MUST_BE_MET);
}

/// A seed does not determine how the threads interleave. So a failure may need several runs of its seed.
#[test]
fn threads_of_one_store_are_answered_as_by_the_model() {
    let (cases, seen) = (corpus(), Tally::default());
    for seed in seeds() {
        let named = Named(seed);
        threads::play(&cases, seed, &seen);
        drop(named);
    }
    let must_be_met = [
        "calls after another thread's",
        "looks",
        "notes heard",
        "notes of an ended run",
        "runs ended by a session",
        "runs ended by themselves",
        "with turns",
        "without turns",
    ];
    judge(&seeds(), seen, &must_be_met);
}

/// The cases that 200 seeds must meet: the rows of the step table, except for two blocks with one digest (`Clash`), and five events.
const MUST_BE_MET: [&str; 34] = [
    "Write: Collected",
    "Write: TooFar",
    "Write: Held",
    "Write: Misfit",
    "Write: Equivocates",
    "Write: Full",
    "Write: Stored, vote true",
    "Write: Stored, vote false",
    "Certify: Collected",
    "Certify: TooFar",
    "Certify: Already",
    "Certify: Misfit",
    "Certify: Conflict",
    "Certify: Full",
    "Certify: Certified",
    "Certificate: Found",
    "Certificate: Unknown",
    "Read: Found",
    "Read: Unknown",
    "Causal: Unknown",
    "Causal: Uncertified",
    "Causal: Incomplete",
    "Causal: Ready",
    "Collect: NotHigher",
    "Collect: Raised",
    "Missing: Missing",
    "MissingOf: Missing",
    "MissingOf: Unknown",
    "Status: Status",
    "crash and replay",
    "history full",
    "automatic restart",
    "walks that agree",
    "looks at a round",
];

#[test]
fn altered_texts_are_refused_with_their_first_fault() {
    for case in corpus() {
        for refused in &case.refused {
            let fault = case
                .committee
                .check(&refused.text)
                .expect_err("a refused text");
            assert_eq!(code_of(&fault), (refused.fault, refused.signer), "{fault}");
        }
        // A body of 17 transactions of 65,536 bytes is too long. Its text has more bytes than the corpus.
        let long = [&[0, 1, 0, 0][..], &[0; 65_536]].concat();
        let text = [
            &[1, 1, 0, 0, 0, 0, 0, 0, 0, 0, 0, 0, 0, 17][..],
            &long.repeat(17),
        ]
        .concat();
        let fault = case.committee.check(&text).expect_err("a long body");
        assert_eq!(fault, CheckError::Text(TextFault::LongBody));
    }
}

/// Votes make a certificate when they reach the quorum, in any order. Altered votes and repeated votes do not count.
#[test]
fn votes_gather_into_certificates() {
    let mut draw = Draw::new(1);
    for case in corpus() {
        let calls = case
            .deliveries
            .iter()
            .map(|delivery| &delivery.call)
            .step_by(19);
        for call in calls {
            if let Call::Certify(certificate) = call {
                gather(&case, &mut draw, certificate);
            }
        }
    }
}

fn gather(case: &Case, draw: &mut Draw, certificate: &Certificate) {
    let vote_of = |message: &[u8]| match case.committee.check(message) {
        Ok(Checked::Vote(vote)) => vote,
        other => panic!("no vote, but {other:?}"),
    };
    let altered = |message: &[u8], at: usize| {
        let mut message = message.to_vec();
        message[at] ^= 0x80;
        vote_of(&message)
    };
    let mut gather = Gather::new(&case.committee, &subject_of(certificate)).expect("a gatherer");
    let mut votes = votes_of(certificate);
    let quorum = case.committee.quorum() as usize;
    for count in 1..=votes.len() {
        assert_eq!(
            gather.certificate().is_ok(),
            count > quorum,
            "a certificate of {} votes",
            count - 1
        );
        let message = votes.swap_remove(draw.index(votes.len()));
        // A vote is its tag, its subject (40 bytes), its signer (2), and its signature (64).
        for (least, most, error) in [
            (1, 40, GatherError::OtherBlock),
            (41, 41, GatherError::NoMember),
            (43, 106, GatherError::BadSignature),
        ] {
            let at = draw.between(least, most) as usize;
            assert_eq!(
                gather.add(&altered(&message, at)),
                Err(error),
                "a vote with another byte {at}"
            );
        }
        let vote = vote_of(&message);
        assert_eq!(
            gather.add(&vote),
            Ok(count >= quorum),
            "whether {count} votes are a quorum"
        );
        assert_eq!(gather.add(&vote), Err(GatherError::Repeated));
    }
    let gathered = gather.certificate().expect("a certificate");
    assert_eq!(
        gathered.message(),
        certificate.message,
        "a gathered certificate"
    );
}
