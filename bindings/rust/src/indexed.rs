//! Iterators over items that have indices.

/// Implements the iterator traits for a type. Its field `left` is the range of the indices that are
/// left, and its method `at` returns the item at an index. `nth` and `last` make no other item.
macro_rules! iterate_by_index {
    ($name:ty: $item:ty) => {
        impl Iterator for $name {
            type Item = $item;

            fn next(&mut self) -> Option<$item> {
                self.left.next().and_then(|index| self.at(index))
            }

            fn size_hint(&self) -> (usize, Option<usize>) {
                self.left.size_hint()
            }

            fn nth(&mut self, n: usize) -> Option<$item> {
                self.left.nth(n).and_then(|index| self.at(index))
            }

            fn last(mut self) -> Option<$item> {
                self.next_back()
            }
        }

        impl DoubleEndedIterator for $name {
            fn next_back(&mut self) -> Option<$item> {
                self.left.next_back().and_then(|index| self.at(index))
            }
        }

        impl ExactSizeIterator for $name {}

        impl std::iter::FusedIterator for $name {}
    };
}

pub(crate) use iterate_by_index;
