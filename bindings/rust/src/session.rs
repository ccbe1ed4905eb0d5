//! Sessions, which make the calls of a store.

use crate::answer::Answer;
use crate::caller::Caller;
use crate::checked::Text;
use crate::code::{Code, read};
use crate::content::EventContent;
use crate::debug::debug_by;
use crate::ffi::{self, Handle};
use crate::raw::{Empty, RawAuthorLook, RawLook, unexpected_kind};
use crate::store::Inner;
use crate::{Block, Causal, CertifyReply, CheckedBlock, CheckedCertificate, CollectReply, Digest};
use crate::{Look, NoMemory, Note, Reply, Status, StepError, Subject, WriteReply};
use std::sync::Arc;

/// One caller of a store. [`Store::session`](crate::Store::session) makes it.
///
/// Each call is one step of the store, and one event of its history. The calls of a session are
/// numbered 1, 2, 3, .. in the history of a run. After a [restart](Session::restart) by any
/// session, they are numbered from 1 again.
///
/// Give each thread a session of its own: the type is `Send`, and a call needs `&mut`. A history
/// names the session of each event. The library proves of every session, however the calls of
/// threads interleave:
///
/// - The history of an answer has exactly the calls that the session made in the run, each once and
///   in order. It begins with the history of the session's answer before, and with each note that
///   the session [heard](Session::hear).
/// - When all sessions [settle](crate::Store::settle), one history has all their calls, and begins
///   with the history of each answer.
///
/// When a session is dropped, the next one that the store makes continues it, with its number.
///
/// A failed call changes no block, certificate or vote, and adds no event. If it restarted the
/// history first, the history is empty. Every call can fail with these errors of [`StepError`]:
///
/// - [`HistoryFull`](StepError::HistoryFull) if the history has as many events as its limit, and the
///   store [never restarts](crate::StoreBuilder::never_restart).
/// - [`NoMemory`](StepError::NoMemory) if the library could not allocate memory. The call can be
///   repeated.
pub struct Session {
    pub(crate) store: Arc<Inner>,
    pub(crate) caller: Caller,
    id: u16,
}

impl Session {
    pub(crate) fn new(store: Arc<Inner>, mut caller: Caller) -> Session {
        let id = caller.id();
        Session { store, caller, id }
    }

    /// Returns the number of the session, counted from 0. Its events have this number.
    #[must_use]
    pub fn id(&self) -> u16 {
        self.id
    }

    /// Returns the number of the run that the session is in. The first run of a store has number 0.
    ///
    /// A session is in the store's present run when it is made, and after it restarts. If another
    /// session restarts, this one enters the new run with its next call, look, note or settlement.
    ///
    /// Of two answers of one run, the history of one is a prefix of that of the other.
    #[must_use]
    pub fn run(&self) -> u64 {
        self.caller.run()
    }

    /// Writes a block. What a validator does next depends on the reply:
    ///
    /// - `Stored { vote: true }`: log the block. Vote for it once it misses no parent
    ///   ([`missing_of`](Session::missing_of)): all are stored and certified, with the named authors
    ///   and the preceding round. Ask again when a parent is stored or certified, and when the garbage
    ///   round is raised. A block of the garbage round needs no parents. A validator that votes for
    ///   blocks with made-up parents never completes a leader again.
    /// - `Stored { vote: false }`: log the block. Send no vote: the block is certified, and another
    ///   block of its round and author came first.
    /// - `Held`: the block was stored before. There is nothing to do.
    /// - `Equivocates`: the block is not stored. Drop it, and fetch it from a signer if it gets a
    ///   certificate: it is then stored without a vote.
    /// - `TooFar`, `Full`: the block is not stored. Drop it, and fetch it and its certificate after
    ///   the garbage round is raised. You may keep one refused block for each round and author,
    ///   within a budget of bytes.
    /// - `Collected`: drop the block.
    /// - `Clash`, `Misfit`: the block is not stored. Report it: an assumption of the store is broken.
    ///
    /// # Errors
    ///
    /// [`StepError::OtherCommittee`] if the block was checked under another committee.
    ///
    /// ```
    /// # mod data { include!(concat!(env!("CARGO_MANIFEST_DIR"), "/examples/data/mod.rs")); }
    /// # use narwhal_store::{Limits, Store};
    /// # let (keys, messages) = (data::keys(), data::values("message"));
    /// # let committee = narwhal_store::Committee::equal(&keys)?;
    /// # let mut session = Store::new(&committee, Limits::default())?.session()?;
    /// # let message = &messages[0];
    /// use narwhal_store::{Checked, WriteReply, text_of_vote};
    ///
    /// if let Checked::Block(block) = committee.check(message)? {
    ///     match session.write(&block)?.reply() {
    ///         WriteReply::Stored { vote: true } => {
    ///             // Once its parents are satisfied: sign this text, and send the vote to the author.
    ///             let _text = text_of_vote(&block.subject())?;
    ///         }
    ///         WriteReply::Stored { vote: false } | WriteReply::Held => {}
    ///         refused => println!("not stored: {refused:?}"),
    ///     }
    /// }
    /// # Ok::<(), Box<dyn std::error::Error>>(())
    /// ```
    pub fn write(&mut self, block: &CheckedBlock) -> Result<Answer<WriteReply>, StepError> {
        let answer = self.hand_in(&block.text)?;
        Ok(Answer::new(answer, WriteReply::read))
    }

    /// Hands in a certificate. The store has it if the reply is [`CertifyReply::Certified`] or
    /// [`CertifyReply::Already`]. Log it if the reply is `Certified`.
    ///
    /// The block and its certificate can come in any order. After `Certified`, fetch the block if it
    /// is not stored ([`Look::stands`](crate::Look::stands)): its signers have it.
    ///
    /// # Errors
    ///
    /// [`StepError::OtherCommittee`] if the certificate was checked under another committee.
    pub fn certify(
        &mut self,
        certificate: &CheckedCertificate,
    ) -> Result<Answer<CertifyReply>, StepError> {
        let answer = self.hand_in(&certificate.text)?;
        Ok(Answer::new(answer, CertifyReply::read))
    }

    /// Looks up the certificate of a digest. The reply is its message, or `None` if there is no
    /// certificate.
    ///
    /// # Errors
    ///
    /// Those that every call can have.
    pub fn certificate(&mut self, digest: &Digest) -> Result<Answer<Option<Vec<u8>>>, StepError> {
        let answer = self.step(EventContent::Small, |session, answer| {
            ffi::nw_session_certificate(session, digest, answer)
        })?;
        Ok(Answer::new(answer, certificate_of))
    }

    /// Looks up the block of a digest. The reply is the block, or `None` if it is not stored.
    ///
    /// # Errors
    ///
    /// Those that every call can have.
    pub fn read(&mut self, digest: &Digest) -> Result<Answer<Option<Block>>, StepError> {
        let answer = self.step(EventContent::Small, |session, answer| {
            ffi::nw_session_read(session, digest, answer)
        })?;
        Ok(Answer::new(answer, block_of))
    }

    /// Opens a causal read of a digest: the block with its certified ancestors of rounds not below
    /// the garbage round.
    ///
    /// If the block is complete, the result is a [`Ticket`](crate::Ticket), which is walked later
    /// without a lock. Otherwise it is an answer that says why not.
    ///
    /// # Errors
    ///
    /// Those that every call can have.
    ///
    /// ```
    /// # mod data { include!(concat!(env!("CARGO_MANIFEST_DIR"), "/examples/data/mod.rs")); }
    /// # let (mut session, certified) = data::filled()?;
    /// # let last = certified[certified.len() - 1];
    /// use narwhal_store::{Causal, CausalFault, Digest};
    ///
    /// // `last` is the digest of the block that was certified last.
    /// match session.causal(&last)? {
    ///     Causal::Ready(ticket) => assert_eq!(ticket.walk()?.last().unwrap().digest(), last),
    ///     Causal::NotReady(answer) => panic!("{}", answer.reply()),
    /// }
    /// let unknown = session.causal(&Digest::of(b"nothing"))?.into_ticket();
    /// assert_eq!(unknown.unwrap_err(), CausalFault::Unknown);
    /// # Ok::<(), Box<dyn std::error::Error>>(())
    /// ```
    pub fn causal(&mut self, digest: &Digest) -> Result<Causal, StepError> {
        let answer = self.step(EventContent::Small, |session, answer| {
            ffi::nw_session_open(session, digest, answer)
        })?;
        Ok(Causal::of(answer))
    }

    /// Raises the garbage round, and removes blocks, certificates and votes of rounds below it from
    /// the tables. Log a collection that answers [`CollectReply::Raised`]. Open tickets keep their
    /// lists.
    ///
    /// This does not free the blocks. The history holds them until it
    /// [restarts](crate::StoreBuilder::restart_when). The list that causal reads share holds them until
    /// [`Store::compact`](crate::Store::compact) or its next rebuild. Answers and tickets hold them
    /// until they are dropped.
    ///
    /// # Errors
    ///
    /// [`StepError::BadRound`] if the round is 2^48 or more.
    pub fn collect(&mut self, round: u64) -> Result<Answer<CollectReply>, StepError> {
        let answer = self.step(EventContent::Collection, |session, answer| {
            ffi::nw_session_collect(session, round, answer)
        })?;
        Ok(Answer::new(answer, CollectReply::read))
    }

    /// Lists missing parents: blocks that a stored block above the garbage round refers to, and
    /// that are not stored or not certified. The reply has the first `most` of them, ascending by
    /// round, author and digest.
    ///
    /// Ask other validators for these blocks and certificates.
    ///
    /// # Errors
    ///
    /// Those that every call can have.
    pub fn missing(&mut self, most: u16) -> Result<Answer<Vec<Subject>>, StepError> {
        let answer = self.step(EventContent::Parents(most), |session, answer| {
            ffi::nw_session_missing(session, most, answer)
        })?;
        Ok(Answer::new(answer, subjects_of))
    }

    /// Lists the missing parents of the block of a digest: those that are not stored or not
    /// certified, ascending by author and digest. The reply is `None` if the block is not stored.
    ///
    /// The list is empty if all parents are stored and certified, or if the block is not above the
    /// garbage round: then [vote](Session::write) for the block if its write answered
    /// `Stored { vote: true }`. The signers of the certificate of a block have its parents.
    ///
    /// # Errors
    ///
    /// Those that every call can have.
    ///
    /// ```
    /// # mod data { include!(concat!(env!("CARGO_MANIFEST_DIR"), "/examples/data/mod.rs")); }
    /// # use narwhal_store::{Checked, Committee, Limits, Store};
    /// # let committee = Committee::equal(&data::keys())?;
    /// # let mut session = Store::new(&committee, Limits::default())?.session()?;
    /// # let messages = data::values("message");
    /// # let Checked::Block(block) = committee.check(&messages[0])? else { panic!() };
    /// let digest = block.subject().digest;
    /// assert_eq!(session.missing_of(&digest)?.reply(), &None);
    /// let _ = session.write(&block)?;
    /// assert_eq!(session.missing_of(&digest)?.reply(), &Some(vec![]));
    /// # Ok::<(), Box<dyn std::error::Error>>(())
    /// ```
    pub fn missing_of(
        &mut self,
        digest: &Digest,
    ) -> Result<Answer<Option<Vec<Subject>>>, StepError> {
        let answer = self.step(EventContent::PARENTS_OF_ONE, |session, answer| {
            ffi::nw_session_missing_of(session, digest, answer)
        })?;
        Ok(Answer::new(answer, missing_of))
    }

    /// Counts the blocks, certificates, complete blocks and missing parents of the store.
    ///
    /// # Errors
    ///
    /// Those that every call can have.
    pub fn status(&mut self) -> Result<Answer<Status>, StepError> {
        let answer = self.step(EventContent::Small, |session, answer| {
            ffi::nw_session_status(session, answer)
        })?;
        Ok(Answer::new(answer, status_of))
    }

    /// Looks at what the store has for a round and an author.
    ///
    /// The look is after all calls that this session made, and after all that it [heard](Session::hear)
    /// of. This is no call: it adds no event. It takes the library's lock for a few look-ups. No block
    /// has a round of 2^48 or more, so such a look finds no digest.
    ///
    /// A validator looks before it [checks](crate::Committee::check) a message that it
    /// [peeked](crate::Peek::of) at, and looks at the parents of a block before it votes.
    ///
    /// ```
    /// # mod data { include!(concat!(env!("CARGO_MANIFEST_DIR"), "/examples/data/mod.rs")); }
    /// # use narwhal_store::{Checked, Committee, Limits, Store};
    /// # let committee = Committee::equal(&data::keys())?;
    /// # let mut session = Store::new(&committee, Limits::default())?.session()?;
    /// # let messages = data::values("message");
    /// # let Checked::Block(block) = committee.check(&messages[0])? else { panic!() };
    /// let _ = session.write(&block)?;
    /// let subject = block.subject();
    /// let look = session.look(subject.round, subject.author);
    /// assert_eq!(look.first, Some(subject.digest));
    /// assert_eq!((look.certified, look.stands), (None, false));
    /// # Ok::<(), Box<dyn std::error::Error>>(())
    /// ```
    #[must_use]
    pub fn look(&mut self, round: u64, author: u16) -> Look {
        let mut raw = RawLook::EMPTY;
        let look = |session: &mut _| ffi::nw_session_look(session, round, author, &mut raw);
        match self.in_turn(look) {
            Code::BAD_ROUND => {
                let known = self.look(0, author);
                (raw.garbage_round, raw.newest_round) = (known.garbage_round, known.newest_round);
            }
            code => code.or_abort(),
        }
        Look::of(&raw)
    }

    /// Looks at what the store has for each author of a round.
    ///
    /// The result has exactly the authors with a first or a certified digest in the round, ascending,
    /// each with the [`Look`] that [`Session::look`] returns for it. All looks are of one moment. This
    /// is no call: it adds no event.
    ///
    /// The certified digests that [stand](Look::stands) are the parents of the next own block. The
    /// digests that are [complete](Look::complete) now and were not at an earlier look became complete
    /// in between. If a certified digest does not stand, fetch its block. If it stands and is not
    /// complete, fetch what [`Session::missing_of`] lists for it.
    ///
    /// # Errors
    ///
    /// [`NoMemory`] if the library could not allocate memory.
    ///
    /// ```
    /// # mod data { include!(concat!(env!("CARGO_MANIFEST_DIR"), "/examples/data/mod.rs")); }
    /// # use narwhal_store::{Checked, Committee, Limits, Store};
    /// # let committee = Committee::equal(&data::keys())?;
    /// # let mut session = Store::new(&committee, Limits::default())?.session()?;
    /// # let messages = data::values("message");
    /// # let Checked::Block(block) = committee.check(&messages[0])? else { panic!() };
    /// let _ = session.write(&block)?;
    /// let subject = block.subject();
    /// let looks = session.look_round(subject.round)?;
    /// assert_eq!(looks, [(subject.author, session.look(subject.round, subject.author))]);
    /// # Ok::<(), Box<dyn std::error::Error>>(())
    /// ```
    pub fn look_round(&mut self, round: u64) -> Result<Vec<(u16, Look)>, NoMemory> {
        let mut looks = vec![RawAuthorLook::EMPTY; self.store.committee.size()];
        let mut found = 0;
        let look =
            |session: &mut _| ffi::session_look_round(session, round, &mut looks, &mut found);
        match self.in_turn(look) {
            Code::BAD_ROUND => return Ok(Vec::new()),
            code => code.done()?,
        }
        let pair = |raw: &RawAuthorLook| (raw.author, Look::of(&raw.look));
        Ok(looks[..found].iter().map(pair).collect())
    }

    /// Takes a note: the history of the store as it is now. This is no call: it adds no event.
    ///
    /// Send the note to another thread, whose session [hears](Session::hear) it. From then on, that
    /// session's histories include all that this one knows now.
    ///
    /// A note keeps its history in memory. Drop it when it is heard.
    ///
    /// # Errors
    ///
    /// [`NoMemory`] if the library could not allocate memory.
    ///
    /// ```
    /// # use narwhal_store::{Committee, Limits, PublicKey, Store};
    /// # let committee = Committee::equal(&[PublicKey([7; 32])])?;
    /// let store = Store::new(&committee, Limits::default())?;
    /// let (mut one, mut other) = (store.session()?, store.session()?);
    /// let _ = one.collect(4)?;
    /// let note = one.note()?;
    /// assert!(other.hear(&note)?);
    /// let answer = other.status()?;
    /// assert!(note.history().is_prefix_of(answer.history()));
    /// # Ok::<(), Box<dyn std::error::Error>>(())
    /// ```
    pub fn note(&mut self) -> Result<Note, NoMemory> {
        let mut note = Handle::answer()?;
        let take = |session: &mut _| ffi::nw_session_note(session, &mut note);
        self.in_turn(take).done()?;
        Ok(Note::new(note))
    }

    /// Hears a note of another session. Returns whether the note is a prefix of the history of the
    /// store's present run. This is no call: it adds no event.
    ///
    /// - `true`: from now on, the note is a prefix of the history of every answer that this session
    ///   gets in the run. Every note of the present run is heard.
    /// - `false`: the note is no prefix of the present run, because it is of another store, or of a run
    ///   that a [restart](Session::restart) ended. Nothing changes.
    ///
    /// Only the histories are compared. So a note of another store is heard too if it has the same
    /// committee, limits, first state and first events: for instance, none in two new stores.
    ///
    /// This takes time in proportion to the events of the note, and to the state that its history
    /// started from. It holds up no call of the store meanwhile. But hearings and comparisons of one
    /// note and its clones come one after another: take a note for each session that hears.
    ///
    /// # Errors
    ///
    /// [`NoMemory`] if the library could not allocate memory.
    pub fn hear(&mut self, note: &Note) -> Result<bool, NoMemory> {
        let hear = |session: &mut _| ffi::nw_session_hear(session, &mut note.history().handle());
        loop {
            // The library compares the events without its lock, so this takes no turn.
            match self.caller.call(hear) {
                Code::ENDED => self.renew()?,
                Code::OTHER_HISTORY => return Ok(false),
                code => return Ok(code.done().map(|()| true)?),
            }
        }
    }

    /// Ends the run, and begins the next one with an empty history. Returns the last history of the
    /// ended run.
    ///
    /// All blocks, certificates and votes stay. The calls of every session are numbered from 1
    /// again. Answers, tickets and notes of the ended run do not change.
    ///
    /// A restart is one step under the library's lock. It copies an entry for each stored block and
    /// certificate, and replays no event. The old history is freed when the returned note is dropped,
    /// with all answers of the run.
    ///
    /// # Errors
    ///
    /// [`NoMemory`] if the library could not allocate memory.
    ///
    /// ```
    /// # use narwhal_store::{Committee, Limits, PublicKey, Store};
    /// # let committee = Committee::equal(&[PublicKey([7; 32])])?;
    /// let store = Store::new(&committee, Limits::default())?;
    /// let (mut one, mut other) = (store.session()?, store.session()?);
    /// let _ = one.collect(4)?;
    /// let _ = other.status()?;
    /// let ended = one.restart()?;
    /// assert_eq!((ended.history().len(), store.events()), (2, 0));
    /// // The other session goes on in the new run.
    /// let answer = other.status()?;
    /// assert_eq!(answer.history().event(0).unwrap().number, 1);
    /// assert_eq!(answer.reply().garbage_round, 4);
    /// # Ok::<(), Box<dyn std::error::Error>>(())
    /// ```
    pub fn restart(&mut self) -> Result<Note, NoMemory> {
        loop {
            let mut turn = self.store.turns.take();
            if let Some(last) = self.store.restart(&mut turn, &mut self.caller)? {
                return Ok(Note::new(last));
            }
        }
    }

    /// Takes the session into the present run of its store.
    pub(crate) fn renew(&mut self) -> Result<(), Code> {
        self.store.turns.take().renew(&mut self.caller).done()
    }

    /// Hands in a block or a certificate. Its handle is locked only during the call, and not during
    /// the wait for the turn.
    fn hand_in(&mut self, text: &Text) -> Result<Handle, StepError> {
        self.step(EventContent::HandedIn(text.size), |session, answer| {
            ffi::nw_session_hand_in(session, &mut text.handle.lock(), answer)
        })
    }

    /// Makes this session's next call, and returns its answer.
    #[inline]
    fn step(
        &mut self,
        content: EventContent,
        call: impl FnMut(&mut Handle, &mut Handle) -> Code,
    ) -> Result<Handle, StepError> {
        self.store.step(&mut self.caller, content, call)
    }

    /// Waits for the turn of this thread, and then calls the session, in the present run.
    fn in_turn(&mut self, call: impl FnMut(&mut Handle) -> Code) -> Code {
        self.store.turns.take().call(&mut self.caller, call)
    }
}

impl Drop for Session {
    fn drop(&mut self) {
        let caller = self.caller.take();
        self.store.idle.lock().extend(caller);
    }
}

/// The message of the certificate that was found.
fn certificate_of(answer: &mut Handle) -> Option<Vec<u8>> {
    ffi::answer_message(answer).map_or_else(Code::none_or_abort, Some)
}

/// The block that was found. It keeps no part of the answer.
fn block_of(answer: &mut Handle) -> Option<Block> {
    let is_found = Reply::read(answer) == Reply::Found;
    is_found.then(|| Block::opened(|out| ffi::nw_answer_block(answer, out)))
}

/// The listed missing parents. The answer is to a call for those of all blocks.
fn subjects_of(answer: &mut Handle) -> Vec<Subject> {
    missing_of(answer).unwrap_or_else(|| unexpected_kind(Reply::Unknown))
}

/// The listed missing parents of a block, if it is stored.
fn missing_of(answer: &mut Handle) -> Option<Vec<Subject>> {
    let listed = match Reply::read(answer) {
        Reply::Missing { listed } => listed as usize,
        Reply::Unknown => return None,
        other => unexpected_kind(other),
    };
    let subject = |index| read(|out| ffi::nw_answer_missing(answer, index, out));
    Some((0..listed).map(subject).collect())
}

fn status_of(answer: &mut Handle) -> Status {
    read(|out| ffi::nw_answer_status(answer, out))
}

debug_by!(Session: id);

#[cfg(test)]
mod tests {
    use super::{block_of, certificate_of, missing_of, status_of, subjects_of};
    use crate::no_memory::{closed, refuses};

    #[test]
    fn what_cannot_be_read_is_not_empty() {
        refuses(|| certificate_of(&mut closed()));
        refuses(|| block_of(&mut closed()));
        refuses(|| subjects_of(&mut closed()));
        refuses(|| missing_of(&mut closed()));
        refuses(|| status_of(&mut closed()));
    }
}
