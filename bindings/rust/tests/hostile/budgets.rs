//! What a peer may cost in a second: bytes, signatures and answers.

use crate::lab::Com;
use narwhal_validator::{Allowance, Budgets};

const BLOCK: usize = 1_000;
const ROUNDS: usize = 3;

/// What an honest member of a committee sends in a round: a block of `BLOCK` bytes, its certificate, and a vote.
fn of_a_round(com: &Com) -> [Vec<u8>; 3] {
    let (short, _) = com.block(1, 0, &[], &[vec![]]);
    let (block, subject) = com.block(1, 0, &[], &[vec![7; BLOCK - short.len()]]);
    assert_eq!(block.len(), BLOCK);
    let signers: Vec<u16> = (0..com.committee.quorum() as u16).collect();
    [
        block,
        com.certificate(&subject, &signers),
        com.vote(&subject, 1),
    ]
}

#[test]
fn an_allowance_is_twice_what_an_honest_peer_sends() {
    for (members, signatures) in [(4, 30), (20, 96), (100, 414)] {
        let com = Com::new(members);
        let allowance = Allowance::of(&com.committee, BLOCK, ROUNDS);
        let messages = of_a_round(&com);
        let bytes: usize = messages.iter().map(Vec::len).sum();
        assert_eq!(allowance.bytes, 2 * ROUNDS * bytes);
        assert_eq!(allowance.signatures, signatures);
        let mut budgets = Budgets::new(members.into(), allowance);
        for second in 0..2 {
            for _ in 0..2 * ROUNDS {
                assert!(messages.iter().all(|message| budgets.check(1, message)));
            }
            let is_over = |message: &Vec<u8>| !budgets.check(1, message);
            assert!(messages.iter().all(is_over), "second {second}");
            assert!(budgets.check(2, &messages[0]), "peers have their own");
            budgets.renew();
        }
    }
}

/// Certificates of 100 signers are over the budget by their signatures, long before their bytes are.
#[test]
fn junk_certificates_are_bounded_by_their_signatures() {
    let com = Com::new(100);
    let (_, subject) = com.block(1, 0, &[], &[]);
    let junk = com.certificate(&subject, &(0..100).collect::<Vec<_>>());
    let allowance = Allowance {
        bytes: 1_000_000,
        signatures: 1_050,
        served: 0,
    };
    let mut budgets = Budgets::new(100, allowance);
    let checked = (0..1_000).filter(|_| budgets.check(3, &junk)).count();
    assert_eq!(checked, 10);
    assert!(budgets.check(3, &com.vote(&subject, 3)), "50 are left");
    // Nobody else has a budget.
    assert!(!budgets.check(100, &junk) && !budgets.serve(100, 0));
}

#[test]
fn answers_are_bounded_by_their_bytes() {
    let allowance = Allowance {
        bytes: 0,
        signatures: 0,
        served: 2_500_000,
    };
    let mut budgets = Budgets::new(4, allowance);
    let served = (0..1_000).filter(|_| budgets.serve(2, 1_000_000)).count();
    assert_eq!(served, 2);
    assert!(budgets.serve(2, 500_000) && !budgets.serve(2, 1));
    assert!(budgets.serve(1, 1));
}
