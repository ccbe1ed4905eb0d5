//! A validator takes signed messages of a committee of four, and reads a block with its ancestors.
mod data;

use narwhal_store::{CertifyReply, Checked, Committee, Digest, Limits, Store, WriteReply};
use std::error::Error;

fn main() -> Result<(), Box<dyn Error>> {
    // Four members of weight 1, by their Ed25519 public keys. Three of them are a quorum.
    let committee = Committee::equal(&data::keys())?;
    let store = Store::new(&committee, Limits::default())?;
    let mut session = store.session()?;
    let mut newest = Digest([0; 32]);

    for message in data::values("message") {
        // A check verifies the signatures of blocks and certificates, without the store's lock.
        match committee.check(&message)? {
            Checked::Block(block) => {
                let digest = block.subject().digest;
                let first = WriteReply::Stored { vote: true }; // of its round and author
                let reply = session.write(&block)?.into_reply();
                let missing = session.missing_of(&digest)?.into_reply();
                // If a parent is missing, the vote waits for it.
                if reply == first && missing.is_some_and(|parents| parents.is_empty()) {
                    println!("vote for {digest}"); // log, sync, sign `text_of_vote`
                }
            }
            Checked::Certificate(certificate) => {
                let reply = session.certify(&certificate)?.into_reply();
                if reply == CertifyReply::Certified {
                    newest = certificate.subject().digest; // log
                }
            }
            Checked::Vote(_) => {} // the author of a block gathers its votes with `Gather`
        }
    }

    // A causal read is a snapshot: the walk takes no lock, and no later call changes its list.
    let ticket = session.causal(&newest)?.into_ticket()?;
    println!("{newest} and its ancestors:");
    for block in ticket.walk()? {
        let transactions: Vec<_> = block.transactions().map(String::from_utf8_lossy).collect();
        let (round, author) = (block.round(), block.author());
        println!("round {round}, author {author}: {transactions:?}");
    }
    Ok(())
}
