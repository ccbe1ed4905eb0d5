//! Checked messages.

use crate::code::{Code, find, read};
use crate::debug::{debug_by, equal_by};
use crate::ffi::{self, Handle};
use crate::lock::Lock;
use crate::{Block, CheckError, Peek, Subject};
use std::sync::Arc;

/// A message that passed [`Committee::check`](crate::Committee::check).
///
/// A clone shares the message, and costs one atomic increment. The type is `Send` and `Sync`. Two
/// checked messages are equal if their bytes are.
#[derive(Clone, Debug, PartialEq, Eq, Hash)]
pub enum Checked {
    /// A block that is well formed and signed by its author.
    Block(CheckedBlock),
    /// A valid certificate.
    Certificate(CheckedCertificate),
    /// A vote. Its signature is not verified yet.
    Vote(CheckedVote),
}

impl Checked {
    /// Checks a message under the committee of the handle.
    pub(crate) fn of(committee: &mut Handle, message: &[u8]) -> Result<Checked, CheckError> {
        let mut handle = ffi::check(committee, message)?;
        let raw = read(|out| ffi::nw_checked_kind(&mut handle, out));
        let text = Text::of(handle, raw.subject, message.len());
        match Peek::read(&raw) {
            Some(Peek::Block { .. }) => Ok(Checked::Block(CheckedBlock { text })),
            Some(Peek::Certificate(_)) => Ok(Checked::Certificate(CheckedCertificate { text })),
            Some(Peek::Vote { signer, .. }) => Ok(Checked::Vote(CheckedVote { text, signer })),
            None => Err(CheckError::of(&raw)),
        }
    }
}

/// A checked text of the library, which is a message.
#[derive(Clone)]
pub(crate) struct Text {
    pub(crate) handle: Arc<Lock<Handle>>,
    pub(crate) subject: Subject,
    /// The bytes of the message.
    pub(crate) size: u64,
}

impl Text {
    pub(crate) fn of(handle: Handle, subject: Subject, size: usize) -> Text {
        Text {
            handle: Arc::new(Lock::of(handle)),
            subject,
            size: size as u64,
        }
    }
}

/// Makes the type of a checked message. It is equal to another if their bytes are.
macro_rules! checked {
    ($($(#[$about:meta])* $name:ident { $($field:ident: $type:ty)? })+) => {$(
        $(#[$about])*
        #[derive(Clone)]
        pub struct $name {
            pub(crate) text: Text,
            $(pub(crate) $field: $type,)?
        }

        impl $name {
            /// Returns the digest of the block that the message is about, with its round and author.
            #[must_use]
            pub fn subject(&self) -> Subject {
                self.text.subject
            }

            /// Returns the message that was checked, to be logged or sent to other validators.
            #[must_use]
            pub fn message(&self) -> Vec<u8> {
                let message = ffi::checked_message(&mut self.text.handle.lock());
                message.unwrap_or_else(Code::abort)
            }
        }

        equal_by!($name: subject, message);
        debug_by!($name: subject $(, $field)?);
    )+};
}

checked! {
    /// A block that is well formed under its committee and signed by its author.
    ///
    /// [`Session::write`](crate::Session::write) takes it. It can be written to several stores, and
    /// again to the same store.
    ///
    /// ```
    /// # mod data { include!(concat!(env!("CARGO_MANIFEST_DIR"), "/examples/data/mod.rs")); }
    /// # use narwhal_store::{Checked, Committee};
    /// # let committee = Committee::equal(&data::keys())?;
    /// # let message = data::values("message").remove(0);
    /// let Checked::Block(block) = committee.check(&message)? else {
    ///     panic!("the first message is a block");
    /// };
    /// assert_eq!(block.message(), message);
    /// # Ok::<(), Box<dyn std::error::Error>>(())
    /// ```
    CheckedBlock {}

    /// A certificate that is valid under its committee: members that reach the quorum signed votes for
    /// one subject.
    ///
    /// [`Session::certify`](crate::Session::certify) takes it. It can be handed to several stores, and
    /// again to the same store.
    CheckedCertificate {}

    /// A vote: a member's signature for a subject.
    ///
    /// The message is decoded, but the signature is not verified and the signer need not be a member.
    /// [`Gather::add`](crate::Gather::add) checks both.
    CheckedVote { signer: u16 }
}

impl CheckedBlock {
    /// Returns the block.
    #[must_use]
    pub fn block(&self) -> Block {
        Block::opened(|out| ffi::nw_checked_block(&mut self.text.handle.lock(), out))
    }
}

impl CheckedCertificate {
    /// The certificate of a handle, for this subject.
    pub(crate) fn of(mut handle: Handle, subject: Subject) -> CheckedCertificate {
        let message = ffi::checked_message(&mut handle).unwrap_or_else(Code::abort);
        let text = Text::of(handle, subject, message.len());
        CheckedCertificate { text }
    }

    /// Returns the numbers of the members whose votes the certificate has. They ascend.
    #[must_use]
    pub fn signers(&self) -> Vec<u16> {
        let mut handle = self.text.handle.lock();
        let signer_at = |index| find(|out| ffi::nw_checked_signer(&mut handle, index, out));
        (0..).map_while(signer_at).collect()
    }
}

impl CheckedVote {
    /// Returns the number of the member that the vote names as its signer.
    #[must_use]
    pub fn signer(&self) -> u16 {
        self.signer
    }
}
