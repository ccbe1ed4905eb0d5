//! Gathering votes into certificates.

use crate::debug::debug_by;
use crate::error::coded_error;
use crate::ffi::{self, Handle};
use crate::{CheckedCertificate, CheckedVote, Committee, Subject};

/// The votes for one subject, gathered until they make a certificate.
///
/// The author of a block gathers the votes of the other members, and sends the certificate to all
/// of them.
///
/// ```
/// # mod data { include!(concat!(env!("CARGO_MANIFEST_DIR"), "/examples/data/mod.rs")); }
/// # use narwhal_store::{CheckedVote, GatherError, Subject};
/// # let (keys, messages) = (data::keys(), data::values("vote"));
/// use narwhal_store::{Checked, Committee, Gather};
///
/// let committee = Committee::equal(&keys)?;
/// let votes = messages.iter().map(|message| committee.check(message));
/// # let votes: Result<Vec<_>, _> = votes.collect();
/// # let votes = votes?.into_iter().map(|checked| match checked {
/// #     Checked::Vote(vote) => vote,
/// #     other => panic!("{other:?}"),
/// # });
/// # let votes: Vec<CheckedVote> = votes.collect();
/// # let subject: Subject = votes[0].subject();
/// // `votes` are three votes for `subject`, by three of the four members.
/// let mut gather = Gather::new(&committee, &subject)?;
/// assert!(!gather.add(&votes[0])?);
/// assert_eq!(gather.add(&votes[0]), Err(GatherError::Repeated));
/// assert!(!gather.add(&votes[1])?);
/// assert!(gather.add(&votes[2])?);
///
/// let certificate = gather.certificate()?;
/// let received = committee.check(&certificate.message())?;
/// assert!(matches!(received, Checked::Certificate(received) if received.subject() == subject));
/// # Ok::<(), Box<dyn std::error::Error>>(())
/// ```
pub struct Gather {
    handle: Handle,
    subject: Subject,
}

impl Gather {
    /// Starts to gather votes for the subject.
    ///
    /// # Errors
    ///
    /// - [`GatherError::BadRound`] if the subject's round is 2^48 or more.
    /// - [`GatherError::NoMember`] if the subject's author is not a member of the committee.
    pub fn new(committee: &Committee, subject: &Subject) -> Result<Gather, GatherError> {
        let mut committee = committee.share()?;
        let handle = Handle::opened(|out| ffi::nw_gather_new(&mut committee, subject, out))?;
        Ok(Gather {
            handle,
            subject: *subject,
        })
    }

    /// Returns the subject that the votes are for.
    #[must_use]
    pub fn subject(&self) -> Subject {
        self.subject
    }

    /// Verifies a vote and counts it. Returns whether the votes now reach the quorum.
    ///
    /// A vote of the validator itself is verified too: a certificate has only verified votes, and the
    /// library has no other way to make one.
    ///
    /// # Errors
    ///
    /// A refused vote is not counted. The error is the first that applies:
    ///
    /// - [`GatherError::OtherBlock`] if the vote is for another subject.
    /// - [`GatherError::Repeated`] if a vote of its signer is already counted.
    /// - [`GatherError::NoMember`] if its signer is not a member.
    /// - [`GatherError::BadSignature`] if its signature does not verify.
    /// - [`GatherError::NoMemory`] if the library could not allocate memory.
    pub fn add(&mut self, vote: &CheckedVote) -> Result<bool, GatherError> {
        let mut quorum = false;
        ffi::nw_gather_add(&mut self.handle, &mut vote.text.handle.lock(), &mut quorum).done()?;
        Ok(quorum)
    }

    /// Returns the certificate of the counted votes. More votes can be added afterwards.
    ///
    /// # Errors
    ///
    /// [`GatherError::FewVotes`] if the votes do not reach the quorum.
    pub fn certificate(&mut self) -> Result<CheckedCertificate, GatherError> {
        let handle = Handle::opened(|out| ffi::nw_gather_certificate(&mut self.handle, out))?;
        Ok(CheckedCertificate::of(handle, self.subject))
    }
}

debug_by!(Gather: subject);

/// Why a vote is not counted, or why there is no certificate.
#[derive(Clone, Copy, Debug, PartialEq, Eq, Hash)]
#[non_exhaustive]
pub enum GatherError {
    /// The author of the subject, or the signer of the vote, is not a member.
    NoMember,
    /// The round of the subject is 2^48 or more.
    BadRound,
    /// The vote is for another subject.
    OtherBlock,
    /// A vote of this signer is already counted.
    Repeated,
    /// The signature of the vote does not verify.
    BadSignature,
    /// The votes do not reach the quorum.
    FewVotes,
    /// The library could not allocate memory.
    NoMemory,
}

coded_error!(GatherError {
    NoMember = NO_MEMBER => "the author of the block or the signer of the vote is not a member",
    BadRound = BAD_ROUND => "the round is not below 2^48",
    OtherBlock = OTHER_BLOCK => "the vote is for another block",
    Repeated = REPEATED => "a vote of this signer is counted already",
    BadSignature = BAD_SIGNATURE => "the vote's signature does not verify",
    FewVotes = FEW_VOTES => "the votes do not reach the quorum",
});
