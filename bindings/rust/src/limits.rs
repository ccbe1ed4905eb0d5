//! The limits of a store.

use crate::{Committee, Store};

/// The limits of a store.
///
/// A store never exceeds its limits. A call that would exceed one answers `Full` or `TooFar`. A call
/// that finds the history full restarts it, or fails with
/// [`StepError::HistoryFull`](crate::StepError::HistoryFull) if the store
/// [never restarts](crate::StoreBuilder::never_restart).
///
/// ```
/// use narwhal_store::Limits;
///
/// let limits = Limits { window: 64, ..Limits::default() };
/// assert_eq!(limits.blocks, 65_536);
/// ```
#[derive(Clone, Copy, Debug, PartialEq, Eq, Hash)]
#[repr(C)]
pub struct Limits {
    /// The most blocks that the store holds, and the most certificates: 1 to 65,536.
    pub blocks: u32,
    /// The most events that a history has: 1 to 65,536. Each call is one event.
    ///
    /// The history holds each block and certificate that was stored, until it restarts.
    /// [`StoreBuilder::restart_when`](crate::StoreBuilder::restart_when) bounds its bytes.
    pub events: u32,
    /// How many rounds the store accepts, from the garbage round on: 1 to 4,096.
    pub window: u32,
    /// The most sessions that the store has at one time: 1 to 256.
    pub sessions: u32,
}

impl Limits {
    /// The bytes of the largest body that a check accepts.
    pub(crate) const MOST_BODY: usize = 1 << 20;
    /// The bytes around the body of a stored block, with those of its certificate's entry.
    const AROUND_BLOCK: u64 = 1_000;
    /// The bytes of a block's missing parents: it has at most 100.
    const UNMET_PARENTS: u64 = 42_000;

    /// Returns the defaults with the largest window, up to the default one, with which a store takes
    /// at most `bytes` of memory, also if as many members are faulty as the committee tolerates.
    ///
    /// `body` is the size of the largest body that the validator accepts, in bytes: it must drop
    /// longer messages before their check. The bound is that of docs/OPERATING.md of the repository
    /// (*The bound on memory*): for each round of the window, one block and one certificate of each
    /// member, and one more block of each faulty one. These are in the tables, in the state that the
    /// history began with, and in the list that causal reads share. [`Store::HISTORY_BYTES`] are
    /// added. Answers and tickets that the caller holds are not counted, and collected blocks are
    /// only freed by a [restart] and [`Store::compact`].
    ///
    /// [`Limits::default`] knows neither the committee nor the bodies, so it bounds no bytes.
    ///
    /// Returns `None` if not even a window of one round fits.
    ///
    /// [`Store::HISTORY_BYTES`]: crate::Store::HISTORY_BYTES
    /// [restart]: crate::Session::restart
    /// [`Store::compact`]: crate::Store::compact
    ///
    /// ```
    /// # use narwhal_store::{Committee, PublicKey};
    /// use narwhal_store::Limits;
    ///
    /// # let keys: Vec<_> = (0..20).map(|byte| PublicKey([byte; 32])).collect();
    /// let committee = Committee::equal(&keys)?; // 20 members
    /// let limits = Limits::within(&committee, 260_000, 1_000_000_000).unwrap();
    /// assert_eq!(limits, Limits { window: 45, ..Limits::default() });
    /// assert_eq!(Limits::within(&committee, 260_000, 80_000_000), None);
    /// # Ok::<(), narwhal_store::CommitteeError>(())
    /// ```
    #[must_use]
    pub fn within(committee: &Committee, body: u64, bytes: u64) -> Option<Limits> {
        let (members, faulty) = (committee.size() as u64, committee.most_faulty());
        let certificate = 43 + 66 * members;
        let body = body.min(Limits::MOST_BODY as u64);
        let blocks = (members + faulty) * (body + Limits::AROUND_BLOCK);
        let round = 3 * (blocks + members * certificate) + faulty * Limits::UNMET_PARENTS;
        let window = bytes.saturating_sub(Store::HISTORY_BYTES) / round;
        let default = Limits::default();
        let window = window.min(u64::from(default.window)) as u32;
        (window > 0).then_some(Limits { window, ..default })
    }

    /// The upper end of each limit's range.
    pub const MAX: Limits = Limits {
        blocks: 65_536,
        events: 65_536,
        window: 4_096,
        sessions: 256,
    };
}

impl Default for Limits {
    /// Returns 65,536 blocks, 65,536 events, a window of 480 rounds and 16 sessions.
    ///
    /// Each member can make the store keep one block per round of the window without any votes,
    /// and a faulty one a second block with a certificate. In 480 rounds, the 100 members of the
    /// largest committee, 33 of them faulty, have at most 63,840 blocks. So nobody can fill the
    /// store this way.
    fn default() -> Limits {
        Limits {
            window: 480,
            sessions: 16,
            ..Limits::MAX
        }
    }
}
