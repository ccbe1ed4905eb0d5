//! What a validator does around the block store `narwhal_store`. This crate is tested, not proved.
//!
//! - [`Flow`]: which messages to check, when to vote, what to fetch, and the delivered order.
//! - [`Log`]: the calls that changed the store, on a disk.
//! - [`Heard`]: what the others say to a member that was away.
//! - [`Budgets`]: how much of a peer's messages to check, and how much to send it, in a second.
//!
//! docs/EMBEDDING.md of the repository has the steps. The consensus rule, the signatures and the
//! network are the caller's.
#![deny(missing_docs)]
#![forbid(unsafe_code)]

mod budgets;
mod copies;
mod flow;
mod heard;
mod log;
mod order;

pub use budgets::{Allowance, Budgets};
pub use flow::{Delivered, Flow, FlowError, Parents};
pub use heard::{Heard, Request, promise};
pub use log::{Log, Opened};
pub use order::Checkpoint;
