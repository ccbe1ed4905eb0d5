//! Committees whose members' secrets are known, for tests: signed blocks, votes and certificates of any shape.
//!
//! Anybody can forge these signatures, since `signing` publishes the secrets. Use them in tests only.
#![allow(dead_code)] // Each test uses a part.

mod signing;

use narwhal_store::{Block, Committee, Digest, Member, PublicKey, Signature, Subject};
use narwhal_store::{text_of_block, text_of_vote, vote_message};

/// A committee, and signers for all its members.
pub struct Com {
    /// The committee.
    pub committee: Committee,
    keys: Vec<PublicKey>,
}

impl Com {
    /// A committee of 1 to 100 members of weight 1.
    pub fn new(members: u16) -> Com {
        Com::weighted(&vec![1; usize::from(members)])
    }

    /// A committee with one member for each weight. It has 1 to 100 members.
    pub fn weighted(weights: &[u32]) -> Com {
        let keys = signing::keys();
        let weighted = |(&key, &weight)| Member { key, weight };
        let members: Vec<_> = keys.iter().zip(weights).map(weighted).collect();
        assert_eq!(members.len(), weights.len(), "there are 100 keys");
        let committee = Committee::new(&members).expect("a committee");
        Com { committee, keys }
    }

    /// The member's signature of a text.
    pub fn sign(&self, member: u16, text: &[u8]) -> Signature {
        signing::sign(&self.keys, member, text)
    }

    /// A block's message and its subject. The parents are authors and digests of the preceding round, ascending by author.
    pub fn block(
        &self,
        author: u16,
        round: u64,
        parents: &[(u16, Digest)],
        transactions: &[Vec<u8>],
    ) -> (Vec<u8>, Subject) {
        let block = Block::new(author, round, parents, transactions).expect("a block");
        let signature = self.sign(author, &text_of_block(&block.digest()));
        (block.message(&signature), block.subject())
    }

    /// The message of a certificate: votes of these signers, who must be in ascending order.
    pub fn certificate(&self, subject: &Subject, signers: &[u16]) -> Vec<u8> {
        // docs/FORMATS.md: the text of a vote is 4 bytes of its own and the subject.
        let text = text_of_vote(subject).expect("a round");
        let mut message = vec![2];
        message.extend(&text[4..]);
        message.extend((signers.len() as u16).to_be_bytes());
        for &signer in signers {
            message.extend(signer.to_be_bytes());
            message.extend(self.sign(signer, &text).0);
        }
        message
    }

    /// The message of a vote.
    pub fn vote(&self, subject: &Subject, signer: u16) -> Vec<u8> {
        let text = text_of_vote(subject).expect("a round");
        vote_message(subject, signer, &self.sign(signer, &text)).expect("a round")
    }
}

#[cfg(test)]
mod tests {
    use super::Com;
    use narwhal_store::{BlockFault, CertificateFault, CheckError, Checked, Gather};

    #[test]
    fn messages_of_all_members_pass_their_checks() {
        let com = Com::new(100);
        let everybody: Vec<u16> = (0..100).collect();
        let mut parents = Vec::new();
        for &author in &everybody {
            let (message, subject) = com.block(author, 0, &[], &[vec![7; 3]]);
            let checked = com.committee.check(&message);
            assert!(matches!(checked, Ok(Checked::Block(block)) if block.subject() == subject));
            parents.push((author, subject.digest));
        }
        let (message, subject) = com.block(99, 1, &parents, &[]);
        assert!(com.committee.check(&message).is_ok());
        let message = com.certificate(&subject, &everybody);
        let checked = com.committee.check(&message);
        assert!(matches!(checked, Ok(Checked::Certificate(made)) if made.subject() == subject));
    }

    #[test]
    fn votes_gather_by_weight() {
        let com = Com::weighted(&[1, 5, 1]);
        let (_, subject) = com.block(2, 0, &[], &[]);
        let mut gather = Gather::new(&com.committee, &subject).unwrap();
        for (signer, quorum) in [(0, false), (1, true)] {
            let Ok(Checked::Vote(vote)) = com.committee.check(&com.vote(&subject, signer)) else {
                panic!("the message is a vote");
            };
            assert_eq!(gather.add(&vote), Ok(quorum));
        }
        assert_eq!(
            gather.certificate().unwrap().message(),
            com.certificate(&subject, &[0, 1])
        );
    }

    #[test]
    fn altered_signatures_are_refused() {
        let com = Com::new(4);
        let (mut message, subject) = com.block(3, 0, &[], &[]);
        *message.last_mut().unwrap() ^= 1;
        let fault = com.committee.check(&message).unwrap_err();
        assert_eq!(fault, CheckError::Block(BlockFault::Signature));
        let mut message = com.certificate(&subject, &[0, 2, 3]);
        *message.last_mut().unwrap() ^= 1;
        let fault = com.committee.check(&message).unwrap_err();
        assert_eq!(
            fault,
            CheckError::Certificate(CertificateFault::Signature { signer: 3 })
        );
    }
}
