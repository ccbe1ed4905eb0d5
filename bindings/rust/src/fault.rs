//! The faults of messages.

use crate::error::{error_texts, from_codes};
use crate::raw::{RawMessage, unexpected_kind};
use std::error::Error;
use std::fmt;

/// Why a message did not pass its check.
///
/// The error's text names only the kind of the message. Its source is the rule that the message
/// breaks.
#[derive(Clone, Copy, Debug, PartialEq, Eq, Hash)]
#[non_exhaustive]
pub enum CheckError {
    /// The bytes are not a message.
    Text(TextFault),
    /// The message is a block that breaks a rule.
    Block(BlockFault),
    /// The message is a certificate that breaks a rule.
    Certificate(CertificateFault),
    /// The library could not allocate memory.
    NoMemory,
}

/// Makes the type of a fault: the number of each in `nw.h`, and its text.
macro_rules! faults {
    ($($(#[$about:meta])* $name:ident {
        $($(#[$rule:meta])* $variant:ident $({ $(#[$of:meta])* $field:ident: $type:ty })? = $number:literal: $text:literal,)+
    })+) => {$(
        $(#[$about])*
        #[derive(Clone, Copy, Debug, PartialEq, Eq, Hash)]
        #[non_exhaustive]
        pub enum $name {
            $($(#[$rule])* $variant $({ $(#[$of])* $field: $type })?,)+
        }

        error_texts!($name { $($name::$variant $({ $field })? => $text,)+ });

        impl $name {
            fn of(raw: &RawMessage) -> Option<$name> {
                match raw.kind {
                    $($number => Some($name::$variant $({ $field: raw.$field })?),)+
                    _ => None,
                }
            }
        }
    )+};
}

faults! {
    /// The first fault of bytes that are not a message, in reading order.
    TextFault {
        /// The bytes end before the message does.
        Short = 110: "the bytes end before the message does",
        /// Bytes follow the message.
        Trailing = 111: "bytes follow the message",
        /// The tag is not that of a block, a certificate or a vote.
        Tag = 112: "the tag is not that of a block, a certificate or a vote",
        /// The version of the body is not 1.
        Version = 113: "the version of the body is not 1",
        /// The block has more than 100 parents.
        ManyParents = 114: "the block has more than 100 parents",
        /// The authors of the parents are not strictly ascending.
        ParentOrder = 115: "the authors of the parents are not strictly ascending",
        /// The block has more than 1,024 transactions.
        ManyTransactions = 116: "the block has more than 1,024 transactions",
        /// A transaction has more than 65,536 bytes.
        LongTransaction = 117: "a transaction has more than 65,536 bytes",
        /// The body has more than 1,048,576 bytes.
        LongBody = 118: "the body has more than 1,048,576 bytes",
        /// The certificate has more than 100 votes.
        ManyVotes = 119: "the certificate has more than 100 votes",
        /// The signers of the votes are not strictly ascending.
        VoteOrder = 120: "the signers of the votes are not strictly ascending",
    }

    /// The first rule that a block breaks.
    BlockFault {
        /// The author is not a member.
        Author = 130: "the block's author is not a member",
        /// The author of a parent is not a member.
        ParentAuthor = 131: "the author of a parent is not a member",
        /// The block is of round 0 and has parents.
        GenesisParents = 132: "a block of round 0 has parents",
        /// The authors of the parents do not reach the quorum.
        FewParents = 133: "the block's parents do not reach the quorum",
        /// The author's signature does not verify.
        Signature = 134: "the block's signature does not verify",
    }

    /// The first rule that a certificate breaks.
    CertificateFault {
        /// The author of the certified block is not a member.
        Author = 140: "the author of the certified block is not a member",
        /// A signer is not a member.
        Signer = 141: "a signer is not a member",
        /// The signers do not reach the quorum.
        FewVotes = 142: "the signers do not reach the quorum",
        /// The signature of a vote does not verify.
        Signature {
            /// The first signer whose signature does not verify.
            signer: u16
        } = 143: "the signature of member {signer} does not verify",
    }
}

impl fmt::Display for CheckError {
    fn fmt(&self, f: &mut fmt::Formatter<'_>) -> fmt::Result {
        match self {
            CheckError::Text(_) => f.write_str("the bytes are not a message"),
            CheckError::Block(_) => f.write_str("the block is not well formed"),
            CheckError::Certificate(_) => f.write_str("the certificate is not valid"),
            CheckError::NoMemory => f.write_str("out of memory"),
        }
    }
}

impl Error for CheckError {
    fn source(&self) -> Option<&(dyn Error + 'static)> {
        match self {
            CheckError::Text(fault) => Some(fault),
            CheckError::Block(fault) => Some(fault),
            CheckError::Certificate(fault) => Some(fault),
            CheckError::NoMemory => None,
        }
    }
}

from_codes!(CheckError {});

impl CheckError {
    /// Decodes a fault.
    pub(crate) fn of(raw: &RawMessage) -> CheckError {
        let text = TextFault::of(raw).map(CheckError::Text);
        let block = || BlockFault::of(raw).map(CheckError::Block);
        let certificate = || CertificateFault::of(raw).map(CheckError::Certificate);
        let fault = text.or_else(block).or_else(certificate);
        fault.unwrap_or_else(|| unexpected_kind(raw.kind))
    }
}

#[cfg(test)]
mod tests {
    use super::{BlockFault, CertificateFault, CheckError, TextFault};
    use std::error::Error;

    #[test]
    fn the_source_of_a_check_error_is_its_fault() {
        let source = |error: CheckError| error.source().map(|fault| fault.to_string());
        let (text, block) = (TextFault::Tag, BlockFault::FewParents);
        let certificate = CertificateFault::Signature { signer: 7 };
        assert_eq!(source(CheckError::Text(text)), Some(text.to_string()));
        assert_eq!(source(CheckError::Block(block)), Some(block.to_string()));
        let told = source(CheckError::Certificate(certificate)).unwrap();
        assert_eq!(told, "the signature of member 7 does not verify");
        assert_eq!(source(CheckError::NoMemory), None);
    }
}
