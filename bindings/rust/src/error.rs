//! Errors that several modules share, and what all errors have in common.

use crate::code::Code;

/// Implements `Display` and `Error` for an error, with a text for each of its cases.
macro_rules! error_texts {
    ($name:ident { $($case:pat => $text:literal),+ $(,)? }) => {
        impl std::fmt::Display for $name {
            fn fmt(&self, f: &mut std::fmt::Formatter<'_>) -> std::fmt::Result {
                match self { $($case => write!(f, $text)),+ }
            }
        }

        impl std::error::Error for $name {}
    };
}

/// Implements `From<Code>` with a variant for each of these codes, and `From<NoMemory>`.
macro_rules! from_codes {
    ($name:ident { $($code:ident => $variant:ident,)* }) => {
        impl From<$crate::NoMemory> for $name {
            fn from(_: $crate::NoMemory) -> $name {
                $name::NoMemory
            }
        }

        impl From<$crate::code::Code> for $name {
            #[cold]
            fn from(code: $crate::code::Code) -> $name {
                match code {
                    $($crate::code::Code::$code => $name::$variant,)*
                    other => $crate::NoMemory::from(other).into(),
                }
            }
        }
    };
}

/// Implements an error of the library: its texts, and its conversion from codes. Each such error
/// also has the variant `NoMemory`.
macro_rules! coded_error {
    ($name:ident { $($variant:ident $(= $code:ident)? => $text:literal),+ $(,)? }) => {
        $crate::error::error_texts!($name {
            $($name::$variant => $text,)+
            $name::NoMemory => "out of memory",
        });
        $crate::error::from_codes!($name { $($($code => $variant,)?)+ });
    };
}

pub(crate) use {coded_error, error_texts, from_codes};

/// The library could not allocate memory. The call changed nothing and can be repeated.
///
/// Calls that only decode the result of another call return no error. If memory runs out, they end
/// the process, as `Vec` and `Arc` do.
#[derive(Clone, Copy, Debug, PartialEq, Eq, Hash)]
pub struct NoMemory;

error_texts!(NoMemory {
    NoMemory => "out of memory",
});

/// The error of a call that fails only if memory runs out.
impl From<Code> for NoMemory {
    #[cold]
    fn from(code: Code) -> NoMemory {
        match code {
            Code::NO_MEMORY => NoMemory,
            other => other.unexpected(),
        }
    }
}

/// A round is 2^48 or more.
#[derive(Clone, Copy, Debug, PartialEq, Eq, Hash)]
pub struct BadRound;

error_texts!(BadRound {
    BadRound => "the round is not below 2^48",
});

/// The error of a call that ends the process if memory runs out.
impl From<Code> for BadRound {
    fn from(code: Code) -> BadRound {
        match code {
            Code::BAD_ROUND => BadRound,
            other => other.abort(),
        }
    }
}

/// Why a store cannot be opened, or a session cannot be made.
#[derive(Clone, Copy, Debug, PartialEq, Eq, Hash)]
#[non_exhaustive]
pub enum OpenError {
    /// A limit is outside its range.
    BadLimits,
    /// The store has made as many sessions as its limit.
    TooManySessions,
    /// The library could not allocate memory.
    NoMemory,
}

coded_error!(OpenError {
    BadLimits = BAD_LIMITS => "a limit is outside its range",
    TooManySessions = TOO_MANY_SESSIONS => "the store has as many sessions as its limit",
});

/// Why a call took no step. The store is as it was before the call, with one exception: if the call
/// restarted the history first, the history is empty.
#[derive(Clone, Copy, Debug, PartialEq, Eq, Hash)]
#[non_exhaustive]
pub enum StepError {
    /// The block or certificate was checked under another committee than the store's.
    OtherCommittee,
    /// The history has as many events as its limit: call
    /// [`Session::restart`](crate::Session::restart).
    HistoryFull,
    /// The round is 2^48 or more.
    BadRound,
    /// The library could not allocate memory. The call can be repeated.
    NoMemory,
}

coded_error!(StepError {
    OtherCommittee = OTHER_COMMITTEE => "the message was checked under another committee",
    HistoryFull = HISTORY_FULL => "the history has as many events as its limit",
    BadRound = BAD_ROUND => "the round is not below 2^48",
});
