//! The calls on handles, which a debug build counts: two at once on one handle end the process.

use super::Handle;
use std::{collections::BTreeSet, process, sync::Mutex, thread};

/// The handles that calls use now, in a debug build.
static USED: Mutex<BTreeSet<usize>> = Mutex::new(BTreeSet::new());

/// A call that uses a handle, until this is dropped.
pub(super) struct User(usize);

impl User {
    /// Notes a use of the handle, and lets other threads go on, so that a second use meets it.
    #[inline]
    pub(super) fn of(handle: &Handle) -> User {
        let place = handle.0.addr();
        if cfg!(debug_assertions) && place != 0 {
            if !USED.lock().unwrap().insert(place) {
                eprintln!("two calls use one handle at once");
                process::abort();
            }
            thread::yield_now();
        }
        User(place)
    }
}

impl Drop for User {
    #[inline]
    fn drop(&mut self) {
        if cfg!(debug_assertions) {
            USED.lock().unwrap().remove(&self.0);
        }
    }
}

#[cfg(all(test, debug_assertions))]
mod tests {
    use super::{Handle, User};
    use crate::code::tests::dies;

    #[test]
    fn two_calls_on_one_handle_end_the_process() {
        let name = "ffi::users::tests::two_calls_on_one_handle_end_the_process";
        let said = dies(name, || {
            let handle = Handle::answer().unwrap();
            drop(User::of(&handle));
            let _uses = [User::of(&handle), User::of(&handle)];
        });
        assert!(said.contains("two calls use one handle at once"), "{said}");
    }
}
