//! The codes that the library returns.

use crate::raw::Empty;
use std::alloc::{Layout, handle_alloc_error};

/// A code that a function of the library returned.
#[derive(Clone, Copy, Debug, PartialEq, Eq)]
#[repr(transparent)]
#[must_use]
pub(crate) struct Code(i32);

impl Code {
    pub(crate) const DONE: Code = Code(0);
    pub(crate) const NO_MEMORY: Code = Code(1);
    pub(crate) const BAD_COMMITTEE: Code = Code(5);
    pub(crate) const BAD_LIMITS: Code = Code(6);
    pub(crate) const OTHER_COMMITTEE: Code = Code(8);
    pub(crate) const HISTORY_FULL: Code = Code(9);
    pub(crate) const BAD_ROUND: Code = Code(10);
    pub(crate) const SMALL: Code = Code(11);
    pub(crate) const ABSENT: Code = Code(12);
    pub(crate) const OVER_LIMIT: Code = Code(13);
    pub(crate) const NO_MEMBER: Code = Code(14);
    pub(crate) const OTHER_BLOCK: Code = Code(15);
    pub(crate) const REPEATED: Code = Code(16);
    pub(crate) const BAD_SIGNATURE: Code = Code(17);
    pub(crate) const FEW_VOTES: Code = Code(18);
    pub(crate) const NOT_COMPARABLE: Code = Code(19);
    pub(crate) const BUSY: Code = Code(20);
    pub(crate) const TOO_MANY_SESSIONS: Code = Code(21);
    pub(crate) const OTHER_HISTORY: Code = Code(22);
    pub(crate) const UNSETTLED: Code = Code(23);
    pub(crate) const ENDED: Code = Code(24);

    /// `Ok` if the call succeeded, and otherwise its code.
    #[inline]
    pub(crate) fn done(self) -> Result<(), Code> {
        match self {
            Code::DONE => Ok(()),
            refused => Err(refused),
        }
    }

    /// Ends the process if the call failed, because its caller returns no error. If memory ran out,
    /// it ends the process as `Vec` does.
    #[inline]
    pub(crate) fn or_abort(self) {
        if self != Code::DONE {
            self.abort()
        }
    }

    /// `None` if the code is `ABSENT`. Any other code ends the process.
    #[inline]
    pub(crate) fn none_or_abort<T>(self) -> Option<T> {
        match self {
            Code::ABSENT => None,
            refused => refused.abort(),
        }
    }

    /// Ends the process as `Vec` does when memory runs out. Never returns, whatever `T` is.
    #[cold]
    pub(crate) fn abort<T>(self) -> T {
        match self {
            Code::NO_MEMORY => handle_alloc_error(Layout::new::<usize>()),
            other => other.unexpected(),
        }
    }

    /// Panics, because by its contract the function never returns this code.
    #[cold]
    pub(crate) fn unexpected(self) -> ! {
        panic!(
            "the linked library does not match narwhal-store: it answered code {}",
            self.0
        )
    }
}

/// What a call writes. If the call fails, this ends the process.
#[inline]
pub(crate) fn read<T: Empty>(call: impl FnOnce(&mut T) -> Code) -> T {
    let mut value = T::EMPTY;
    call(&mut value).or_abort();
    value
}

/// What a call writes, or `None` if the call returns `ABSENT`. If the call fails, this ends the
/// process.
#[inline]
pub(crate) fn find<T: Empty>(call: impl FnOnce(&mut T) -> Code) -> Option<T> {
    let mut value = T::EMPTY;
    match call(&mut value) {
        Code::DONE => Some(value),
        other => other.none_or_abort(),
    }
}

#[cfg(test)]
pub(crate) mod tests {
    use super::Code;
    use std::{env, process};

    /// What a process says that runs this. It must abort. The test of this name starts itself once
    /// more for it.
    pub(crate) fn dies(test: &str, run: impl FnOnce()) -> String {
        let wanted = "NARWHAL_STORE_DIES";
        if env::var_os(wanted).is_some() {
            run();
            process::exit(0);
        }
        let mut again = process::Command::new(env::current_exe().unwrap());
        let again = again.args(["--exact", test, "--nocapture"]).env(wanted, "");
        let ended = again.output().unwrap();
        assert_eq!(ended.status.code(), None, "{ended:?}");
        String::from_utf8_lossy(&ended.stderr).into_owned()
    }

    #[test]
    fn a_decoding_without_memory_ends_the_process() {
        let name = "code::tests::a_decoding_without_memory_ends_the_process";
        let said = dies(name, || Code::NO_MEMORY.or_abort());
        assert!(said.contains("memory allocation"), "{said}");
    }
}
