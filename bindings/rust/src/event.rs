//! The events of histories.

use crate::Digest;
use crate::code::read;
use crate::ffi::{self, Handle};
use crate::raw::{RawEvent, RawTagged, unexpected_kind};

/// One call of a session, with its reply.
#[derive(Clone, Copy, Debug, PartialEq, Eq, Hash)]
pub struct Event {
    /// The number of the session, from 0.
    pub session: u16,
    /// The number of the call among those of its session, from 1.
    pub number: u32,
    /// The call.
    pub call: Call,
    /// The reply.
    pub reply: Reply,
}

/// A call, as a history records it.
#[derive(Clone, Copy, Debug, PartialEq, Eq, Hash)]
#[non_exhaustive]
pub enum Call {
    /// [`Session::write`](crate::Session::write) of the block with this digest.
    Write(Digest),
    /// [`Session::certify`](crate::Session::certify) with a certificate of this digest.
    Certify(Digest),
    /// [`Session::certificate`](crate::Session::certificate) of this digest.
    Certificate(Digest),
    /// [`Session::read`](crate::Session::read) of this digest.
    Read(Digest),
    /// [`Session::causal`](crate::Session::causal) of this digest.
    Causal(Digest),
    /// [`Session::collect`](crate::Session::collect) to this round.
    Collect(u64),
    /// [`Session::missing`](crate::Session::missing) for at most this many.
    Missing(u16),
    /// [`Session::missing_of`](crate::Session::missing_of) this digest.
    MissingOf(Digest),
    /// [`Session::status`](crate::Session::status).
    Status,
}

/// A reply, as a history records it.
#[derive(Clone, Copy, Debug, PartialEq, Eq, Hash)]
#[non_exhaustive]
pub enum Reply {
    /// The block was stored by this call.
    Stored {
        /// Whether it was the first of its round and author.
        vote: bool,
    },
    /// The block was stored already.
    Held,
    /// Another block was stored under the digest.
    Clash,
    /// This other block was the first of the round and author.
    Equivocates(Digest),
    /// The certificate was kept by this call.
    Certified,
    /// The digest was certified already.
    Already,
    /// This other digest was certified for the round and author.
    Conflict(Digest),
    /// The round was below the garbage round.
    Collected {
        /// The garbage round.
        garbage_round: u64,
    },
    /// The round was not below the garbage round plus the window.
    TooFar,
    /// The digest was certified for another round or author, or its block had another.
    Misfit,
    /// The store held as many blocks or certificates as its limit.
    Full,
    /// The block or the certificate was found.
    Found,
    /// There was no such block or certificate.
    Unknown,
    /// The block had no certificate.
    Uncertified,
    /// An ancestor of the block was missing or not certified.
    Incomplete,
    /// The call got a [`Ticket`](crate::Ticket).
    Ready,
    /// The garbage round was raised.
    Raised {
        /// How many blocks were dropped.
        dropped: u64,
    },
    /// The round was not above the garbage round.
    NotHigher {
        /// The garbage round.
        garbage_round: u64,
    },
    /// Missing parents were listed.
    Missing {
        /// How many were listed.
        listed: u64,
    },
    /// The store's content was counted.
    Status,
}

impl Event {
    pub(crate) fn of(raw: RawEvent) -> Event {
        Event {
            session: raw.session,
            number: raw.number,
            call: Call::of(&raw.call),
            reply: Reply::of(&raw.reply),
        }
    }
}

impl Call {
    /// Decodes a call. The numbers are the kinds of calls in `nw.h`.
    fn of(raw: &RawTagged) -> Call {
        match raw.kind {
            301 => Call::Write(raw.digest),
            302 => Call::Certify(raw.digest),
            303 => Call::Certificate(raw.digest),
            304 => Call::Read(raw.digest),
            305 => Call::Causal(raw.digest),
            306 => Call::Collect(raw.number),
            307 => Call::Missing(raw.number as u16),
            308 => Call::Status,
            309 => Call::MissingOf(raw.digest),
            other => unexpected_kind(other),
        }
    }
}

impl Reply {
    /// The reply of an answer.
    #[inline]
    pub(crate) fn read(answer: &mut Handle) -> Reply {
        Reply::of(&read(|out| ffi::nw_answer_reply(answer, out)))
    }

    /// Decodes a reply. The numbers are the kinds of replies in `nw.h`.
    #[inline]
    fn of(raw: &RawTagged) -> Reply {
        let (number, digest) = (raw.number, raw.digest);
        let garbage_round = number;
        match raw.kind {
            201 => Reply::Stored { vote: true },
            202 => Reply::Stored { vote: false },
            203 => Reply::Held,
            204 => Reply::Clash,
            205 => Reply::Equivocates(digest),
            206 => Reply::Certified,
            207 => Reply::Already,
            208 => Reply::Conflict(digest),
            209 => Reply::Collected { garbage_round },
            210 => Reply::TooFar,
            211 => Reply::Misfit,
            212 => Reply::Full,
            213 => Reply::Found,
            214 => Reply::Unknown,
            215 => Reply::Uncertified,
            216 => Reply::Incomplete,
            217 => Reply::Ready,
            218 => Reply::Raised { dropped: number },
            219 => Reply::NotHigher { garbage_round },
            220 => Reply::Missing { listed: number },
            221 => Reply::Status,
            other => unexpected_kind(other),
        }
    }
}

#[cfg(test)]
mod tests {
    use super::{Call, Reply};
    use crate::Digest;
    use crate::raw::RawTagged;
    use crate::reply::{CausalFault, CertifyReply, CollectReply, WriteReply};

    const DIGEST: Digest = Digest([9; 32]);

    fn raw(kind: i32) -> RawTagged {
        RawTagged {
            kind,
            number: 65_007,
            digest: DIGEST,
        }
    }

    #[test]
    fn each_kind_of_call_is_told() {
        let calls = [
            Call::Write(DIGEST),
            Call::Certify(DIGEST),
            Call::Certificate(DIGEST),
            Call::Read(DIGEST),
            Call::Causal(DIGEST),
            Call::Collect(65_007),
            Call::Missing(65_007),
            Call::Status,
            Call::MissingOf(DIGEST),
        ];
        for (kind, call) in (301..).zip(calls) {
            assert_eq!(Call::of(&raw(kind)), call);
        }
    }

    /// The numbers of the kinds are those of `nw.h`. Messages of tests never meet `Clash`, since two
    /// blocks would need one digest.
    #[test]
    fn each_kind_of_reply_is_told() {
        let garbage_round = 65_007;
        let replies = [
            Reply::Stored { vote: true },
            Reply::Stored { vote: false },
            Reply::Held,
            Reply::Clash,
            Reply::Equivocates(DIGEST),
            Reply::Certified,
            Reply::Already,
            Reply::Conflict(DIGEST),
            Reply::Collected { garbage_round },
            Reply::TooFar,
            Reply::Misfit,
            Reply::Full,
            Reply::Found,
            Reply::Unknown,
            Reply::Uncertified,
            Reply::Incomplete,
            Reply::Ready,
            Reply::Raised { dropped: 65_007 },
            Reply::NotHigher { garbage_round },
            Reply::Missing { listed: 65_007 },
            Reply::Status,
        ];
        for (kind, reply) in (201..).zip(replies) {
            assert_eq!(Reply::of(&raw(kind)), reply);
        }
    }

    /// The same kinds, as a call answers them. Each has the name that it has in a history.
    #[test]
    fn each_call_answers_what_its_event_tells() {
        let reply = |kind| Reply::of(&raw(kind));
        let told = |kind| format!("{:?}", reply(kind));
        for kind in [201, 202, 203, 204, 205, 209, 210, 211, 212] {
            assert_eq!(format!("{:?}", WriteReply::of(reply(kind))), told(kind));
        }
        for kind in [206, 207, 208, 209, 210, 211, 212] {
            assert_eq!(format!("{:?}", CertifyReply::of(reply(kind))), told(kind));
        }
        for kind in [218, 219] {
            assert_eq!(format!("{:?}", CollectReply::of(reply(kind))), told(kind));
        }
        for kind in [214, 215, 216] {
            assert_eq!(format!("{:?}", CausalFault::of(reply(kind))), told(kind));
        }
    }

    #[test]
    #[should_panic(
        expected = "the linked library does not match narwhal-store: it answered kind 99"
    )]
    fn an_unknown_kind_names_the_fault() {
        let _ = Reply::of(&raw(99));
    }
}
