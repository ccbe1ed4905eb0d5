//! The structs that the library writes into, and the kinds that they have.

use crate::{Digest, Limits, Member, Status, Subject};
use std::fmt::Debug;

/// A value for the library to write over.
pub(crate) trait Empty {
    const EMPTY: Self;
}

/// Gives numbers these empty values, and structs those of their fields.
macro_rules! empty {
    ($($type:ty = $empty:expr),+; $($name:ident { $($field:ident),+ })+) => {
        $(impl Empty for $type {
            const EMPTY: $type = $empty;
        })+

        $(impl Empty for $name {
            const EMPTY: $name = $name { $($field: Empty::EMPTY),+ };
        })+
    };
}

empty! {
    bool = false, i32 = 0, u16 = 0, u32 = 0, u64 = 0, usize = 0, Digest = Digest([0; 32]);
    Subject { digest, round, author }
    Status { garbage_round, blocks, certificates, complete, wanted }
}

/// Makes structs of `nw.h`.
macro_rules! raw {
    ($($(#[$about:meta])* $name:ident { $($field:ident: $type:ty,)+ })+) => {$(
        $(#[$about])*
        #[derive(Clone, Copy, Debug)]
        #[repr(C)]
        pub(crate) struct $name {
            $(pub(crate) $field: $type,)+
        }

        impl Empty for $name {
            const EMPTY: $name = $name { $($field: Empty::EMPTY,)+ };
        }
    )+};
}

raw! {
    /// A call or a reply: its kind, with a number and a digest if its kind has them.
    RawTagged { kind: i32, number: u64, digest: Digest, }

    /// An event of a history.
    RawEvent { session: u16, number: u32, call: RawTagged, reply: RawTagged, }

    /// What a checked text is: a message, or a fault.
    RawMessage { kind: i32, signer: u16, subject: Subject, }

    /// A reference of a block to a block of the preceding round.
    RawParent { author: u16, digest: Digest, }

    /// What a store has in a slot.
    RawLook {
        garbage_round: u64,
        newest_round: u64,
        missing: usize,
        first: Digest,
        certified: Digest,
        has_first: bool,
        has_certified: bool,
        stands: bool,
        complete: bool,
    }

    /// What a store has in the slot of this author.
    RawAuthorLook { author: u16, look: RawLook, }
}

/// The layouts of `nw.h`.
const _: () = {
    assert!(size_of::<Member>() == 36 && align_of::<Member>() == 4);
    assert!(size_of::<Limits>() == 16 && size_of::<Status>() == 40);
    assert!(size_of::<Subject>() == 48 && align_of::<Subject>() == 8);
    assert!(size_of::<RawParent>() == 34 && align_of::<RawParent>() == 2);
    assert!(size_of::<RawTagged>() == 48 && size_of::<RawEvent>() == 104);
    assert!(size_of::<RawMessage>() == 56 && size_of::<RawLook>() == 96);
    assert!(size_of::<RawAuthorLook>() == 104);
};

/// Panics, because `nw.h` has no such kind here.
#[cold]
pub(crate) fn unexpected_kind(kind: impl Debug) -> ! {
    panic!("the linked library does not match narwhal-store: it answered kind {kind:?}")
}
