//! The calls and their error codes by name, with the numbers that the scope document gives them.

use crate::machine::Kind;

/// What the number in R0 asks for.
#[derive(Clone, Copy, Debug, PartialEq, Eq)]
pub enum Call {
    Run,
    Yield,
    Poll,
    Wait,
    Send,
    Donate,
    Lend,
    Share,
    Retrieve,
    Relinquish,
    Reclaim,
    /// The number is no call's.
    Unknown,
}

/// What all call numbers have in common.
pub const HIGH_HALF: u32 = 0x8400_0000;
/// R0 after a success.
pub const SUCCESS: u32 = 0x8400_0061;
/// R0 after an error.
pub const FAILURE: u32 = 0x8400_0060;

impl Call {
    /// Every call that there is.
    pub const ALL: [Call; 11] = [
        Call::Run,
        Call::Yield,
        Call::Poll,
        Call::Wait,
        Call::Send,
        Call::Donate,
        Call::Lend,
        Call::Share,
        Call::Retrieve,
        Call::Relinquish,
        Call::Reclaim,
    ];

    /// The calls that open a transaction.
    pub const SENDINGS: [Call; 3] = [Call::Donate, Call::Lend, Call::Share];

    /// The calls that take a handle.
    pub const HANDLINGS: [Call; 3] = [Call::Retrieve, Call::Relinquish, Call::Reclaim];

    /// The number that asks for the call; 0, which asks for none, for an unknown one.
    pub fn number(self) -> u32 {
        match self {
            Call::Run => 0x8400_006D,
            Call::Yield => 0x8400_006C,
            Call::Poll => 0x8400_006A,
            Call::Wait => 0x8400_006B,
            Call::Send => 0x8400_006E,
            Call::Donate => 0x8400_0071,
            Call::Lend => 0x8400_0072,
            Call::Share => 0x8400_0073,
            Call::Retrieve => 0x8400_0074,
            Call::Relinquish => 0x8400_0076,
            Call::Reclaim => 0x8400_0077,
            Call::Unknown => 0,
        }
    }

    /// The call that a number asks for.
    pub fn of(number: u32) -> Call {
        Call::ALL
            .into_iter()
            .find(|call| call.number() == number)
            .unwrap_or(Call::Unknown)
    }

    /// The kind of transaction that the call opens, if it opens one.
    pub fn kind(self) -> Option<Kind> {
        match self {
            Call::Donate => Some(Kind::Donate),
            Call::Lend => Some(Kind::Lend),
            Call::Share => Some(Kind::Share),
            _ => None,
        }
    }
}

/// The number by which a descriptor names a kind.
pub fn kind_number(kind: Kind) -> u32 {
    match kind {
        Kind::Donate => 1,
        Kind::Lend => 2,
        Kind::Share => 3,
    }
}

/// Why a call fails.
#[derive(Clone, Copy, Debug, PartialEq, Eq)]
pub enum Error {
    NotSupported,
    Invalid,
    NoMemory,
    Busy,
    Denied,
    Aborted,
    NoData,
}

impl Error {
    /// What R2 holds after the error.
    pub fn code(self) -> u32 {
        let code: i32 = match self {
            Error::NotSupported => -1,
            Error::Invalid => -2,
            Error::NoMemory => -3,
            Error::Busy => -4,
            Error::Denied => -6,
            Error::Aborted => -8,
            Error::NoData => -9,
        };
        code as u32
    }
}
