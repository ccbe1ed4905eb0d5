//! The lists of walks.

use crate::Block;
use crate::debug::debug_by;
use crate::ffi::{self, Handle};
use crate::indexed::iterate_by_index;
use crate::lock::Lock;
use std::ops::Range;
use std::sync::Arc;

/// The blocks of a walk, ascending by round and author.
///
/// [`Ticket::walk`](crate::Ticket::walk) makes it. The iterator has an exact length and can go in
/// both directions. It keeps all blocks of the list in memory until it is dropped, with its clones. A
/// block that it gave keeps only itself.
#[derive(Clone)]
pub struct Walk {
    list: Arc<Lock<Handle>>,
    left: Range<usize>,
}

impl Walk {
    pub(crate) fn new(list: Handle, len: usize) -> Walk {
        Walk {
            list: Arc::new(Lock::of(list)),
            left: 0..len,
        }
    }

    fn at(&self, index: usize) -> Option<Block> {
        let open = |out: &mut _| ffi::nw_list_block(&mut self.list.lock(), index, out);
        Some(Block::opened(open))
    }
}

iterate_by_index!(Walk: Block);

debug_by!(Walk: len);
