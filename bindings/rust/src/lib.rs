//! The block store of a Narwhal mempool, as formally verified software.
//!
//! The store keeps blocks of transactions and their certificates in memory. For each round and
//! author, it says which block came first, so that the validator votes for no other block. It
//! lists a block with its certified ancestors, while other threads write blocks and collect old
//! rounds. A collection raises the *garbage round*, and drops all rounds below it. The code of the
//! store is proved to meet its contracts. This crate is a thin safe layer over its static library.
//!
//! # Use
//!
//! 1. Make a [`Committee`] from the members' Ed25519 keys, and a [`Store`] under it.
//! 2. Make a [`Session`] for each thread with [`Store::session`].
//! 3. For each message of the network, [`Peek::of`] reads what it is about, and
//!    [`Session::look`] says what the store has. Drop the message if the store has it or would refuse
//!    it, or if it exceeds a peer's budget. Check the others with [`Committee::check`] or
//!    [`Committee::check_all`]. A check waits for no call of a store.
//! 4. Pass checked messages to the thread's session: [`Session::write`] and [`Session::certify`].
//! 5. When a write answers `Stored { vote: true }`, the block is the first of its round and author.
//!    Vote for it once all its parents are stored and certified ([`Session::missing_of`]): log,
//!    sync, and send the vote.
//! 6. Make your own blocks with [`Block::new`], sign [`Block::text_to_sign`], and pass
//!    [`Block::message`] to [`Committee::check`] before you write and send it. Make a vote with
//!    [`vote_message`], and pass the checked votes to [`Gather::add`], which verifies them.
//! 7. Open a causal read of a leader with [`Session::causal`], and walk its [`Ticket`].
//! 8. Raise the garbage round with [`Session::collect`].
//! 9. Wait for changes with [`Store::wait_for_change`] in a thread, or [`Store::changed`] in a task.
//!
//! ```
//! # mod data { include!(concat!(env!("CARGO_MANIFEST_DIR"), "/examples/data/mod.rs")); }
//! # let (keys, messages) = (data::keys(), data::values("message"));
//! use narwhal_store::{Checked, Committee, Digest, Limits, Store};
//!
//! let committee = Committee::equal(&keys)?;
//! let store = Store::new(&committee, Limits::default())?;
//! let mut session = store.session()?;
//! let mut last = Digest([0; 32]);
//! for message in &messages {
//!     match committee.check(message)? {
//!         Checked::Block(block) => {
//!             let reply = session.write(&block)?.into_reply();
//!             println!("{}: {reply:?}", block.subject());
//!         }
//!         Checked::Certificate(certificate) => {
//!             let reply = session.certify(&certificate)?.into_reply();
//!             println!("{}: {reply:?}", certificate.subject());
//!             last = certificate.subject().digest;
//!         }
//!         Checked::Vote(_) => {}
//!     }
//! }
//! for block in session.causal(&last)?.into_ticket()?.walk()? {
//!     println!("round {} author {}", block.round(), block.author());
//! }
//! # Ok::<(), Box<dyn std::error::Error>>(())
//! ```
//!
//! # Guarantees
//!
//! The proofs cover the static library and its lock: every function is memory-safe and returns, and
//!
//! - each answer carries a [`History`] of calls and replies, which ends with its own call; a
//!   sequential store that takes these calls in order gives exactly these replies;
//! - however the calls of threads interleave, the history of an answer has exactly the calls that
//!   its session made in the run, each once and in order, and everything that the session heard of;
//! - a walk lists exactly the certified ancestors that are not below the garbage round, as of the
//!   call that opened the ticket;
//! - at most one write per round and author answers `Stored { vote: true }`, also across restarts
//!   of the history.
//!
//! The crate has a lock too, at which threads wait for their turns. Nothing of the above rests on
//! it. The proofs do not cover this crate, and do not show that signatures cannot be forged, or that
//! no two blocks have the same digest. Std, libc, the compilers, the prover, and the toolchain's
//! SHA-2 and `atomic_table` are trusted.
//!
//! # After a crash
//!
//! The store is in memory only, and it forgets its votes when the process ends. A validator that
//! forgets its votes can vote twice. So it must log the calls that changed its store, and sync the
//! log before it sends a vote or a block of its own. After a crash it syncs what it read, file and
//! folder, and repeats the calls in their order, before it sends anything. docs/EMBEDDING.md of the
//! repository (After a crash) has all rules, and the example `durable` shows them.
//!
//! # Forks
//!
//! Do not use the crate in the child of a fork of a process with more than one thread. Another
//! thread may have been in a call, which never ends in the child. Start the child's program anew, as
//! `std::process::Command` does.
//!
//! # Panics
//!
//! No function panics, unless the linked library is not the one that this version of the crate is
//! made for.
//!
//! # Versions
//!
//! Errors, faults, looks and the parts of events may grow, so they are `non_exhaustive`. Replies and
//! kinds of messages say what a validator does next: a new one of these is a new major version.
#![deny(missing_docs, unsafe_code, unsafe_op_in_unsafe_fn)]

#[cfg(test)]
extern crate self as narwhal_store;

mod answer;
mod block;
mod builder;
mod bytes;
mod caller;
mod changes;
mod checked;
mod code;
mod committee;
mod content;
mod debug;
mod error;
mod event;
mod fault;
mod ffi;
mod gather;
mod history;
mod indexed;
mod intake;
mod limits;
mod lock;
mod look;
#[cfg(test)]
mod no_memory;
mod note;
mod parts;
mod peek;
mod raw;
mod reply;
mod session;
mod settled;
mod store;
mod subject;
mod ticket;
mod turns;
mod walk;

pub use answer::{Answer, Causal};
pub use block::{Block, BlockError};
pub use builder::StoreBuilder;
pub use bytes::{Digest, HexError, PublicKey, Signature};
pub use changes::Changed;
pub use checked::{Checked, CheckedBlock, CheckedCertificate, CheckedVote};
pub use committee::{Committee, CommitteeError, Member};
pub use error::{BadRound, NoMemory, OpenError, StepError};
pub use event::{Call, Event, Reply};
pub use fault::{BlockFault, CertificateFault, CheckError, TextFault};
pub use gather::{Gather, GatherError};
pub use history::{Events, History};
pub use limits::Limits;
pub use look::Look;
pub use note::Note;
pub use parts::Transactions;
pub use peek::Peek;
pub use reply::{CausalFault, CertifyReply, CollectReply, Status, WriteReply};
pub use session::Session;
pub use settled::{SettleError, Settled, Unsettled};
pub use store::Store;
pub use subject::{Subject, text_of_block, text_of_vote, vote_message};
pub use ticket::{AgreeError, Ticket};
pub use walk::Walk;

/// Which static library this crate was linked with. The text has no path.
///
/// Each text but `none` ends in `sha256:` and the hash of the linked library in 64 hex digits.
///
/// - `shipped libnw.a`: the library that the package ships. It has the hash of its record.
/// - `CHANGED libnw.a`: the library in the package's folder, which does not have the hash of its
///   record. The build printed a warning.
/// - `NW_LIB_DIR` and a file name: the library in the folder that this environment variable named
///   when the crate was built.
/// - `none`: the environment variable `DOCS_RS` was set, so that only the documents were built.
pub const ARCHIVE: &str = env!("NW_ARCHIVE");

/// The types that can be sent to another thread, and those that can be shared too. Two cannot:
///
/// ```compile_fail,E0277
/// fn shared<T: Sync>() {}
/// shared::<narwhal_store::Ticket>();
/// ```
///
/// ```compile_fail,E0277
/// fn shared<T: Sync>() {}
/// shared::<narwhal_store::Answer<narwhal_store::WriteReply>>();
/// ```
///
/// Each error converts to the usual type:
///
/// ```
/// # use narwhal_store::{Session, Store};
/// # use std::error::Error;
/// fn settle(sessions: Vec<Session>) -> Result<usize, Box<dyn Error + Send + Sync>> {
///     Ok(Store::settle(sessions)?.history().len())
/// }
/// # assert!(settle(Vec::new()).is_err());
/// ```
const _: () = {
    const fn sent<T: Send>() {}
    const fn shared<T: Send + Sync>() {}
    shared::<(
        Committee,
        Store,
        Session,
        Gather,
        Settled,
        Unsettled,
        Changed,
    )>();
    shared::<(Block, Checked, History, Note, Walk)>();
    sent::<(Answer<WriteReply>, Causal, Ticket)>();
};
