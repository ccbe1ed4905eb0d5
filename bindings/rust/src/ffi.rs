//! The exports of the static library, and the allocator that it calls. All `unsafe` is here.
//!
//! The names, types and promises are those of `nw.h`, which is generated from the proved exports.
#![allow(unsafe_code)]

mod allocator;
mod users;

use crate::code::{Code, find};
use crate::raw::{Empty, RawAuthorLook, RawEvent, RawLook, RawMessage, RawParent, RawTagged};
use crate::{Digest, Limits, Member, Signature, Status, Subject};
#[cfg(target_os = "linux")]
use std::arch::global_asm;
use std::ffi::c_void;
use std::mem::{self, MaybeUninit};
use std::{ptr, slice};
use users::User;

/// A handle of the library: one pointer, which is null while the handle is closed. Dropping it
/// closes it.
///
/// The library returns a code for a closed handle and for a handle of another kind, so one type
/// serves all kinds.
#[repr(transparent)]
pub(crate) struct Handle(*mut c_void);

// SAFETY: any thread may use and free a handle, as long as there is one call at a time on it. The
// library proves that the content of each kind of handle is `Send`. Every function takes `&mut
// Handle`, so calls on one handle never overlap.
unsafe impl Send for Handle {}
// SAFETY: every function takes `&mut Handle`, so threads that share a handle make no call on it.
unsafe impl Sync for Handle {}

impl Handle {
    /// A closed handle.
    const CLOSED: Handle = Handle(ptr::null_mut());

    /// The handle that the call opens, or its code if that is not `DONE`.
    #[inline]
    pub(crate) fn opened(open: impl FnOnce(&mut Handle) -> Code) -> Result<Handle, Code> {
        let mut handle = Handle::CLOSED;
        open(&mut handle).done()?;
        Ok(handle)
    }

    /// New room for an answer.
    pub(crate) fn answer() -> Result<Handle, Code> {
        Handle::opened(nw_answer_new)
    }

    pub(crate) fn is_closed(&self) -> bool {
        self.0.is_null()
    }

    /// Takes the content of the handle, which is closed afterwards.
    pub(crate) fn take(&mut self) -> Handle {
        mem::replace(self, Handle::CLOSED)
    }
}

impl Drop for Handle {
    #[inline]
    fn drop(&mut self) {
        if !self.0.is_null() {
            let _user = User::of(self);
            nw_free(self);
        }
    }
}

/// Ties the crate to the interface of the library that it is made for. The number in the export's
/// name changes with each change of an export, a struct or a code, so another library does not link.
#[used]
static INTERFACE: extern "C" fn() -> i32 = nw_interface_7;

// Without this, a shared object links with another library, and does not load.
#[cfg(target_os = "linux")]
global_asm!(".hidden nw_interface_7");

/// A handle, lent to a call.
type At<'a> = &'a mut Handle;

/// The exports that take handles first, and then only references and numbers, and return a code.
macro_rules! exports {
    ($($export:ident($($handle:ident),+ $(; $($argument:ident: $type:ty),+)?);)+) => {
        mod exports {
            use super::*;

            // SAFETY: the names and types are those of nw.h. These functions are safe: the library
            // returns a code for all values of the arguments, and keeps no reference after the call.
            unsafe extern "C" {
                $(pub(super) safe fn $export($($handle: At,)+ $($($argument: $type),+)?) -> Code;)+
            }
        }

        $(#[inline]
        pub(crate) fn $export($($handle: At,)+ $($($argument: $type),+)?) -> Code {
            let _users = [$(User::of($handle)),+];
            exports::$export($($handle,)+ $($($argument),+)?)
        })+
    };
}

exports! {
    nw_committee_share(committee, out);
    nw_committee_quorum(committee; out: &mut u32);

    nw_block_subject(block; out: &mut Subject);
    nw_block_counts(block; parents: &mut usize, transactions: &mut usize);
    nw_block_parent(block; index: usize, out: &mut RawParent);
    nw_checked_kind(checked; out: &mut RawMessage);
    nw_checked_block(checked, out);
    nw_checked_signer(checked; index: usize, out: &mut u16);

    nw_gather_new(committee; subject: &Subject, out: At);
    nw_gather_add(gather, vote; quorum: &mut bool);
    nw_gather_certificate(gather, out);

    nw_store_new(committee; limits: &Limits, out: At);
    nw_store_session(store, out);
    nw_store_compact(store);

    nw_session_id(session; out: &mut u16);
    nw_session_run(session; out: &mut u64);
    nw_session_look(session; round: u64, author: u16, out: &mut RawLook);
    nw_session_hand_in(session, checked, answer);
    nw_session_certificate(session; digest: &Digest, answer: At);
    nw_session_read(session; digest: &Digest, answer: At);
    nw_session_open(session; digest: &Digest, answer: At);
    nw_session_collect(session; round: u64, answer: At);
    nw_session_missing(session; most: u16, answer: At);
    nw_session_missing_of(session; digest: &Digest, answer: At);
    nw_session_status(session, answer);
    nw_session_note(session, answer);
    nw_session_hear(session, note);
    nw_session_restart(session, answer);
    nw_session_renew(session);

    nw_settlement_new(out);
    nw_settlement_give(settlement, session);
    nw_settle(settlement, answer);
    nw_settlement_take(settlement, out);

    nw_answer_new(out);
    nw_answer_reply(answer; out: &mut RawTagged);
    nw_answer_status(answer; out: &mut Status);
    nw_answer_block(answer, out);
    nw_answer_missing(answer; index: usize, out: &mut Subject);
    nw_answer_events(answer; out: &mut usize);
    nw_answer_event(answer; index: usize, out: &mut RawEvent);
    nw_answer_is_prefix(answer, other; out: &mut bool);

    nw_ticket_scope(ticket; digest: &mut Digest, garbage_round: &mut u64);
    nw_ticket_walk(ticket, out);
    nw_ticket_agree(ticket, other; same: &mut bool);
    nw_list_len(list; out: &mut usize);
    nw_list_block(list; index: usize, out: At);
}

// SAFETY: the names and types are those of nw.h. A `safe fn` takes references only. The others take
// a pointer with a length.
unsafe extern "C" {
    pub(crate) safe fn nw_text_of_block(digest: &Digest, out: &mut [u8; 36]);
    pub(crate) safe fn nw_text_of_vote(subject: &Subject, out: &mut [u8; 44]) -> Code;
    safe fn nw_free(handle: &mut Handle);
    safe fn nw_interface_7() -> i32;
    fn nw_committee_new(members: *const Member, members_len: usize, out: &mut Handle) -> Code;
    fn nw_digest_of(bytes: *const u8, bytes_len: usize, out: &mut Digest);
    fn nw_peek(text: *const u8, text_len: usize, out: &mut RawMessage) -> Code;
    fn nw_check(committee: &mut Handle, text: *const u8, text_len: usize, out: &mut Handle)
    -> Code;
    fn nw_block_new(
        author: u16,
        round: u64,
        parents: *const RawParent,
        parents_len: usize,
        transactions: *const u8,
        transactions_len: usize,
        lengths: *const u32,
        lengths_len: usize,
        out: &mut Handle,
    ) -> Code;
    fn nw_session_look_round(
        session: &mut Handle,
        round: u64,
        looks: *mut RawAuthorLook,
        looks_len: usize,
        needed: &mut usize,
    ) -> Code;
    fn nw_block_transactions(
        block: &mut Handle,
        buffer: *mut u8,
        buffer_len: usize,
        lengths: *mut u32,
        lengths_len: usize,
        needed: &mut usize,
    ) -> Code;
    fn nw_vote_message(
        subject: &Subject,
        signer: u16,
        signature: &Signature,
        buffer: *mut u8,
        buffer_len: usize,
        needed: &mut usize,
    ) -> Code;
}

/// The exports that take a handle first, and write bytes into a buffer. `needed` gets the number of
/// bytes.
macro_rules! buffers {
    ($($export:ident as $name:ident($handle:ident $(, $argument:ident: $type:ty)?);)+) => {
        // SAFETY: as above. The buffer is a pointer with a length.
        unsafe extern "C" {
            $(fn $export(
                $handle: At, $($argument: $type,)? buffer: *mut u8, buffer_len: usize, needed: &mut usize,
            ) -> Code;)+
        }

        $(pub(crate) fn $name($handle: At $(, $argument: $type)?) -> Result<Vec<u8>, Code> {
            let _user = User::of($handle);
            // SAFETY: the pointer and the length are those of one buffer, which may be written to.
            written(|at, len, needed| unsafe { $export($handle, $($argument,)? at, len, needed) })
        })+
    };
}

buffers! {
    nw_block_body as block_body(block);
    nw_block_message as block_message(block, signature: &Signature);
    nw_checked_message as checked_message(checked);
    nw_answer_message as answer_message(answer);
}

/// The message of a vote.
pub(crate) fn vote_message(
    subject: &Subject,
    signer: u16,
    signature: &Signature,
) -> Result<Vec<u8>, Code> {
    written(|buffer, len, needed| {
        // SAFETY: the pointer and the length are those of one buffer, which may be written to.
        unsafe { nw_vote_message(subject, signer, signature, buffer, len, needed) }
    })
}

/// The bytes that a call writes, at first into a buffer on the stack. If that is too small, the
/// call is repeated with a buffer of the needed size.
fn written(mut call: impl FnMut(*mut u8, usize, &mut usize) -> Code) -> Result<Vec<u8>, Code> {
    let (mut buffer, mut needed) = ([MaybeUninit::<u8>::uninit(); 4096], 0);
    match call(buffer.as_mut_ptr().cast(), buffer.len(), &mut needed) {
        Code::DONE => {
            let bytes = buffer[..needed].as_ptr().cast();
            // SAFETY: a call that succeeded wrote the first `needed` bytes of the buffer.
            return Ok(unsafe { slice::from_raw_parts(bytes, needed) }.to_vec());
        }
        Code::SMALL => {}
        refused => return Err(refused),
    }
    let mut bytes = Vec::with_capacity(needed);
    call(bytes.as_mut_ptr(), bytes.capacity(), &mut needed).done()?;
    assert!(needed <= bytes.capacity());
    // SAFETY: a call that succeeded wrote the first `needed` bytes of the buffer.
    unsafe { bytes.set_len(needed) };
    Ok(bytes)
}

/// All transactions of a block, one after another. `lengths` has a place for the length of each.
pub(crate) fn block_transactions(block: &mut Handle, lengths: &mut [u32]) -> Result<Vec<u8>, Code> {
    let _user = User::of(block);
    let (places, count) = (lengths.as_mut_ptr(), lengths.len());
    written(|buffer, len, needed| {
        // SAFETY: each pointer has the length of its buffer, which may be written to.
        unsafe { nw_block_transactions(block, buffer, len, places, count, needed) }
    })
}

/// What a store has in each slot of a round. `looks` has a place for each member.
pub(crate) fn session_look_round(
    session: &mut Handle,
    round: u64,
    looks: &mut [RawAuthorLook],
    found: &mut usize,
) -> Code {
    let _user = User::of(session);
    let (places, count) = (looks.as_mut_ptr(), looks.len());
    // SAFETY: the pointer and the length are those of one buffer, which may be written to.
    unsafe { nw_session_look_round(session, round, places, count, found) }
}

/// Makes a committee.
pub(crate) fn committee_new(members: &[Member]) -> Result<Handle, Code> {
    // SAFETY: the pointer and the length are those of one slice. `Member` has the layout of
    // `nw_member`.
    Handle::opened(|out| unsafe { nw_committee_new(members.as_ptr(), members.len(), out) })
}

/// The SHA-256 digest of the bytes.
pub(crate) fn digest_of(bytes: &[u8]) -> Digest {
    let mut digest = Digest::EMPTY;
    // SAFETY: the pointer and the length are those of one slice.
    unsafe { nw_digest_of(bytes.as_ptr(), bytes.len(), &mut digest) };
    digest
}

/// What the first bytes of a text say, if it begins as a message.
#[inline]
pub(crate) fn peek(text: &[u8]) -> Option<RawMessage> {
    // SAFETY: the pointer and the length are those of one slice.
    find(|out| unsafe { nw_peek(text.as_ptr(), text.len(), out) })
}

/// Decodes and checks a text.
pub(crate) fn check(committee: &mut Handle, text: &[u8]) -> Result<Handle, Code> {
    let _user = User::of(committee);
    // SAFETY: the pointer and the length are those of one slice.
    Handle::opened(|out| unsafe { nw_check(committee, text.as_ptr(), text.len(), out) })
}

/// Makes a block. `transactions` has the bytes of all transactions, one after another, and
/// `lengths` has the length of each.
pub(crate) fn block_new(
    author: u16,
    round: u64,
    parents: &[RawParent],
    transactions: &[u8],
    lengths: &[u32],
) -> Result<Handle, Code> {
    // SAFETY: each pointer is followed by the length of its slice. `RawParent` has the layout of
    // `nw_parent`.
    Handle::opened(|out| unsafe {
        nw_block_new(
            author,
            round,
            parents.as_ptr(),
            parents.len(),
            transactions.as_ptr(),
            transactions.len(),
            lengths.as_ptr(),
            lengths.len(),
            out,
        )
    })
}

#[cfg(test)]
mod tests {
    use super::written;
    use crate::code::Code;

    /// Writes 7s into the whole buffer if it has `size` bytes.
    fn sevens(size: usize) -> Result<Vec<u8>, Code> {
        let mut sizes = [4096, size].into_iter();
        written(|buffer, len, needed| {
            assert_eq!(Some(len), sizes.next(), "the size of the buffer");
            *needed = size;
            if len < size {
                return Code::SMALL;
            }
            // SAFETY: the buffer has `len` bytes, and `size` is not above.
            unsafe { buffer.write_bytes(7, size) };
            Code::DONE
        })
    }

    #[test]
    fn a_buffer_has_the_size_that_the_call_is_told() {
        for size in [0, 1, 4096, 4097, 100_000] {
            assert_eq!(sevens(size), Ok(vec![7; size]));
        }
    }
}
