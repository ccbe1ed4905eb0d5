//! How much of a peer's messages a validator checks, and how much it sends a peer, in a second.

use narwhal_store::{Committee, Peek};

/// What a peer may cost in a second.
#[derive(Clone, Copy, Debug, PartialEq, Eq)]
pub struct Allowance {
    /// The bytes of its messages that are checked.
    pub bytes: usize,
    /// The signatures in these messages. Each takes some 20 microseconds.
    pub signatures: usize,
    /// The bytes that are sent to answer its requests.
    pub served: usize,
}

impl Allowance {
    /// Twice what an honest peer sends in a second with these rounds: its block, with a message of at
    /// most `block` bytes, the certificate of that block, and a vote. As many bytes are served: a
    /// member that catches up asks all others, and gets two rounds from them in the time of one.
    #[must_use]
    pub fn of(committee: &Committee, block: usize, rounds: usize) -> Allowance {
        let signers = committee.size().min(committee.quorum() as usize);
        let bytes = 2 * rounds * (block + CERTIFICATE + SIGNER * signers + VOTE);
        Allowance { bytes, signatures: 2 * rounds * (1 + signers + 1), served: bytes }
    }
}

// The bytes of a certificate without its signers, of each signer, and of a vote.
const CERTIFICATE: usize = 43;
const SIGNER: usize = 66;
const VOTE: usize = 107;

/// What is left of each peer's allowance.
#[derive(Clone, Debug)]
pub struct Budgets {
    allowance: Allowance,
    left: Vec<Allowance>,
}

impl Budgets {
    /// A full allowance for each peer: those with the numbers below `peers`.
    #[must_use]
    pub fn new(peers: usize, allowance: Allowance) -> Budgets {
        Budgets { allowance, left: vec![allowance; peers] }
    }

    /// Gives each peer a full allowance. Call it once in a second.
    pub fn renew(&mut self) {
        self.left.fill(self.allowance);
    }

    /// Whether a message from the peer may be checked. If so, it is charged: ask last, after
    /// [`Flow::wants`](crate::Flow::wants).
    pub fn check(&mut self, from: u16, message: &[u8]) -> bool {
        let signatures = match Peek::of(message) {
            Some(Peek::Block { .. } | Peek::Vote { .. }) => 1,
            // A certificate, or a request, or how far the peer is, with a certificate.
            _ => message.len().saturating_sub(CERTIFICATE) / SIGNER,
        };
        let left = self.left.get_mut(usize::from(from));
        let left = left.filter(|it| message.len() <= it.bytes && signatures <= it.signatures);
        let charge = |left: &mut Allowance| {
            left.bytes -= message.len();
            left.signatures -= signatures;
        };
        left.map(charge).is_some()
    }

    /// Whether these bytes may be sent to answer a request of the peer. If so, they are charged.
    pub fn serve(&mut self, to: u16, bytes: usize) -> bool {
        let left = self.left.get_mut(usize::from(to)).filter(|left| bytes <= left.served);
        left.map(|left| left.served -= bytes).is_some()
    }
}
