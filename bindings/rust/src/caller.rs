//! The library's sessions.

use crate::code::{Code, read};
use crate::ffi::{self, Handle};
use std::thread;
use std::time::Duration;

/// A session of the library, with the number of its run.
pub(crate) struct Caller {
    handle: Handle,
    run: u64,
}

impl Caller {
    /// A caller. [`Caller::note_run`] reads its run.
    pub(crate) fn new(handle: Handle) -> Caller {
        Caller { handle, run: 0 }
    }

    /// The number of the run that the session belongs to.
    #[inline]
    pub(crate) fn run(&self) -> u64 {
        self.run
    }

    /// Takes the caller out of a session that is dropped, unless its handle is given away.
    pub(crate) fn take(&mut self) -> Option<Caller> {
        let (handle, run) = (self.handle.take(), self.run);
        (!handle.is_closed()).then_some(Caller { handle, run })
    }

    /// The number of the session among those of its store.
    pub(crate) fn id(&mut self) -> u16 {
        read(|out| ffi::nw_session_id(&mut self.handle, out))
    }

    /// Makes a call of the session, and again while the library is busy.
    #[inline]
    pub(crate) fn call(&mut self, mut call: impl FnMut(&mut Handle) -> Code) -> Code {
        again(|| call(&mut self.handle))
    }

    /// Reads the number of the run. Calls can change it.
    pub(crate) fn note_run(&mut self) {
        self.run = read(|out| ffi::nw_session_run(&mut self.handle, out));
    }
}

/// How often a call that finds the library busy yields, before it sleeps.
const YIELDS: u32 = 100;

/// Makes a call, and again while the library is busy. A call that finds the library busy changes
/// nothing.
#[inline]
pub(crate) fn again(mut call: impl FnMut() -> Code) -> Code {
    let mut yields = 0;
    loop {
        match call() {
            // A thread with real-time priority yields to no other thread, but it sleeps.
            Code::BUSY if yields == YIELDS => thread::sleep(Duration::from_micros(50)),
            Code::BUSY => {
                yields += 1;
                thread::yield_now();
            }
            code => return code,
        }
    }
}

#[cfg(test)]
mod tests {
    use super::{YIELDS, again};
    use crate::code::Code;

    #[test]
    fn a_call_is_repeated_while_the_library_is_busy() {
        for busy in [0, 1, YIELDS, YIELDS + 1, 3 * YIELDS] {
            let mut calls = 0;
            let code = again(|| {
                calls += 1;
                if calls > busy {
                    Code::NO_MEMORY
                } else {
                    Code::BUSY
                }
            });
            assert_eq!((code, calls), (Code::NO_MEMORY, busy + 1));
        }
    }
}
