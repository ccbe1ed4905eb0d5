//! A toy consensus: which leader is delivered next.
//!
//! Every second round has a leader. It is decided if f + 1 certified blocks of the next round refer to it. Before it, the leaders in its causal
//! list are decided. A later leader always has such a leader in its list, so all validators decide the same leaders.

use crate::node::Result;
use narwhal_store::{Digest, Session, Subject};
use narwhal_validator::Flow;

/// How far the garbage round stays behind the last leader.
pub const LAG: u64 = 8;

/// The next leader to deliver, if it is decided.
pub fn next_leader(flow: &mut Flow, members: u16) -> Result<Option<Subject>> {
    let next = flow.checkpoint().leader.round + 2;
    for round in (next..flow.newest()).step_by(2) {
        let Some(leader) = leader_of(flow.session(), members, round) else {
            continue;
        };
        if support(flow.session(), &leader)? > usize::from((members - 1) / 3) {
            return earliest(flow.session(), members, leader, next).map(Some);
        }
    }
    Ok(None)
}

/// The complete block of the leader of a round.
fn leader_of(session: &mut Session, members: u16, round: u64) -> Option<Subject> {
    let author = (round / 2 % u64::from(members)) as u16;
    let look = session.look(round, author);
    let digest = look.certified.filter(|_| look.complete)?;
    Some(Subject {
        digest,
        round,
        author,
    })
}

/// How many certified blocks of the next round refer to a leader.
fn support(session: &mut Session, leader: &Subject) -> Result<usize> {
    let looks = session.look_round(leader.round + 1)?;
    let certified = looks.iter().filter_map(|(_, look)| look.certified);
    let mut support = 0;
    for digest in certified.collect::<Vec<Digest>>() {
        let block = session.read(&digest)?.into_reply();
        let refers = |(_, parent): &(u16, Digest)| *parent == leader.digest;
        support += usize::from(block.is_some_and(|block| block.parents().iter().any(refers)));
    }
    Ok(support)
}

/// The first leader, from the round `next` on, on the way back from a decided one.
fn earliest(session: &mut Session, members: u16, leader: Subject, next: u64) -> Result<Subject> {
    let mut earliest = leader;
    for round in (next..leader.round).rev().filter(|round| round % 2 == 0) {
        let Some(earlier) = leader_of(session, members, round) else {
            continue;
        };
        let ticket = session.causal(&earliest.digest)?.into_ticket()?;
        if ticket.walk()?.any(|block| block.digest() == earlier.digest) {
            earliest = earlier;
        }
    }
    Ok(earliest)
}
