//! Notes: histories that sessions pass to each other.

use crate::ffi::Handle;
use crate::{Events, History};
use std::sync::Arc;

/// The history of a store at some moment. [`Session::note`](crate::Session::note) takes it, and
/// [`Session::hear`](crate::Session::hear) hears it.
///
/// A clone shares the note, and costs one atomic increment. The type is `Send` and `Sync`.
#[derive(Clone, Debug)]
pub struct Note(Arc<History>);

impl Note {
    pub(crate) fn new(handle: Handle) -> Note {
        Note(Arc::new(History::new(handle)))
    }

    /// Returns the history. It has no events if the run had none yet.
    #[must_use]
    pub fn history(&self) -> &History {
        &self.0
    }

    /// Returns an iterator over the events of the history, from the first.
    #[must_use]
    pub fn events(&self) -> Events<'_> {
        self.0.events()
    }
}
