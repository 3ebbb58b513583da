//! The wrong ways of a call: what can be wrong with it, and the answer that each must get.

use super::call::{Call, Error};

/// One thing that is wrong with a call. Where a name speaks of a low half or byte, the number is right but for the rest.
#[derive(Clone, Copy, Debug, PartialEq, Eq)]
pub enum Flaw {
    NumberZero,
    /// A call's low half under the high half 0.
    NumberLowHalf,
    /// A call's low half under another high half.
    NumberOtherHigh,
    /// Between or beside the calls' numbers.
    NumberNear,
    NumberOther,
    RunBySecondary,
    RunOfPrimary,
    RunOfN,
    RunLowByte,
    RunOfOther,
    NothingWaits,
    ReceiverN,
    Receiver255,
    ReceiverLowByte,
    ReceiverLowHalf,
    ReceiverCaller,
    ReceiverOther,
    LengthZero,
    Length1025,
    LengthLowHalf,
    LengthMax,
    LengthOther,
    ReceiverFull,
    SizeZero,
    SizeTwo,
    SizeEleven,
    SizeLowHalf,
    SizeMax,
    SizeOther,
    WordZeroLess,
    WordZeroMore,
    WordZeroLowHalf,
    KindZero,
    KindOfAnotherCall,
    KindFour,
    KindLowByte,
    KindOther,
    BaseUnaligned,
    BaseOfM,
    /// The base of a page that differs by a multiple of 256 from one that there is.
    BaseLowByte,
    BaseBeyondHalf,
    BaseOther,
    BasesEqual,
    BasesDescend,
    PageOwnTx,
    PageOwnRx,
    PageOtherMailbox,
    PageSpare,
    PageDonated,
    PageLent,
    PageLentOut,
    PageShared,
    PageSharedOut,
    PageOfOther,
    PageOffered,
    PageBorrowed,
    PageSharedWith,
    NoHandleFree,
    HandleFree,
    HandlePlus16,
    HandleLowByte,
    HandleLowHalf,
    HandleMax,
    HandleOther,
    /// The caller is neither sender nor receiver.
    Stranger,
    /// The caller is the one of the two that may not do this.
    OtherParty,
    Marked,
    Unmarked,
    UnmarkedDonation,
}

impl Flaw {
    /// Every flaw.
    pub const ALL: [Flaw; 69] = [
        Flaw::NumberZero,
        Flaw::NumberLowHalf,
        Flaw::NumberOtherHigh,
        Flaw::NumberNear,
        Flaw::NumberOther,
        Flaw::RunBySecondary,
        Flaw::RunOfPrimary,
        Flaw::RunOfN,
        Flaw::RunLowByte,
        Flaw::RunOfOther,
        Flaw::NothingWaits,
        Flaw::ReceiverN,
        Flaw::Receiver255,
        Flaw::ReceiverLowByte,
        Flaw::ReceiverLowHalf,
        Flaw::ReceiverCaller,
        Flaw::ReceiverOther,
        Flaw::LengthZero,
        Flaw::Length1025,
        Flaw::LengthLowHalf,
        Flaw::LengthMax,
        Flaw::LengthOther,
        Flaw::ReceiverFull,
        Flaw::SizeZero,
        Flaw::SizeTwo,
        Flaw::SizeEleven,
        Flaw::SizeLowHalf,
        Flaw::SizeMax,
        Flaw::SizeOther,
        Flaw::WordZeroLess,
        Flaw::WordZeroMore,
        Flaw::WordZeroLowHalf,
        Flaw::KindZero,
        Flaw::KindOfAnotherCall,
        Flaw::KindFour,
        Flaw::KindLowByte,
        Flaw::KindOther,
        Flaw::BaseUnaligned,
        Flaw::BaseOfM,
        Flaw::BaseLowByte,
        Flaw::BaseBeyondHalf,
        Flaw::BaseOther,
        Flaw::BasesEqual,
        Flaw::BasesDescend,
        Flaw::PageOwnTx,
        Flaw::PageOwnRx,
        Flaw::PageOtherMailbox,
        Flaw::PageSpare,
        Flaw::PageDonated,
        Flaw::PageLent,
        Flaw::PageLentOut,
        Flaw::PageShared,
        Flaw::PageSharedOut,
        Flaw::PageOfOther,
        Flaw::PageOffered,
        Flaw::PageBorrowed,
        Flaw::PageSharedWith,
        Flaw::NoHandleFree,
        Flaw::HandleFree,
        Flaw::HandlePlus16,
        Flaw::HandleLowByte,
        Flaw::HandleLowHalf,
        Flaw::HandleMax,
        Flaw::HandleOther,
        Flaw::Stranger,
        Flaw::OtherParty,
        Flaw::Marked,
        Flaw::Unmarked,
        Flaw::UnmarkedDonation,
    ];

    /// The calls that the flaw can be in.
    pub fn calls(self) -> &'static [Call] {
        use Flaw::*;
        match self {
            NumberZero | NumberLowHalf | NumberOtherHigh | NumberNear | NumberOther => &[Call::Unknown],
            RunBySecondary | RunOfPrimary | RunOfN | RunLowByte | RunOfOther => &[Call::Run],
            NothingWaits => &[Call::Poll, Call::Wait],
            ReceiverN | Receiver255 | ReceiverLowByte | ReceiverCaller | ReceiverOther => {
                &[Call::Send, Call::Donate, Call::Lend, Call::Share]
            }
            ReceiverLowHalf | LengthZero | Length1025 | LengthLowHalf | LengthMax | LengthOther | ReceiverFull => {
                &[Call::Send]
            }
            SizeZero | SizeTwo | SizeEleven | SizeLowHalf | SizeMax | SizeOther => &Call::SENDINGS,
            WordZeroLess | WordZeroMore | WordZeroLowHalf => &Call::SENDINGS,
            KindZero | KindOfAnotherCall | KindFour | KindLowByte | KindOther => &Call::SENDINGS,
            BaseUnaligned | BaseOfM | BaseLowByte | BaseBeyondHalf | BaseOther => &Call::SENDINGS,
            BasesEqual | BasesDescend | NoHandleFree => &Call::SENDINGS,
            PageOwnTx | PageOwnRx | PageOtherMailbox | PageSpare | PageDonated | PageLent | PageLentOut => {
                &Call::SENDINGS
            }
            PageShared | PageSharedOut | PageOfOther | PageOffered | PageBorrowed | PageSharedWith => &Call::SENDINGS,
            HandleFree | HandlePlus16 | HandleLowByte | HandleLowHalf | HandleMax | HandleOther => &Call::HANDLINGS,
            Stranger | OtherParty => &Call::HANDLINGS,
            Marked => &[Call::Retrieve, Call::Reclaim],
            Unmarked | UnmarkedDonation => &[Call::Relinquish],
        }
    }

    /// What a call must answer that is wrong in this way and no other.
    pub fn answer(self) -> Error {
        use Flaw::*;
        match self {
            NumberZero | NumberLowHalf | NumberOtherHigh | NumberNear | NumberOther => Error::NotSupported,
            RunBySecondary => Error::Denied,
            NothingWaits => Error::NoData,
            ReceiverFull => Error::Busy,
            PageOwnTx | PageOwnRx | PageOtherMailbox | PageSpare | PageDonated | PageLent | PageLentOut => {
                Error::Denied
            }
            PageShared | PageSharedOut | PageOfOther | PageOffered | PageBorrowed | PageSharedWith => Error::Denied,
            NoHandleFree => Error::NoMemory,
            Stranger | OtherParty | Marked | Unmarked | UnmarkedDonation => Error::Denied,
            RunOfPrimary | RunOfN | RunLowByte | RunOfOther => Error::Invalid,
            ReceiverN | Receiver255 | ReceiverLowByte | ReceiverLowHalf | ReceiverCaller | ReceiverOther => {
                Error::Invalid
            }
            LengthZero | Length1025 | LengthLowHalf | LengthMax | LengthOther => Error::Invalid,
            SizeZero | SizeTwo | SizeEleven | SizeLowHalf | SizeMax | SizeOther => Error::Invalid,
            WordZeroLess | WordZeroMore | WordZeroLowHalf => Error::Invalid,
            KindZero | KindOfAnotherCall | KindFour | KindLowByte | KindOther => Error::Invalid,
            BaseUnaligned | BaseOfM | BaseLowByte | BaseBeyondHalf | BaseOther => Error::Invalid,
            BasesEqual | BasesDescend => Error::Invalid,
            HandleFree | HandlePlus16 | HandleLowByte | HandleLowHalf | HandleMax | HandleOther => Error::Invalid,
        }
    }

    /// Whether the flaw belongs to one base among several, so that it matters where that base stands.
    pub fn has_place(self) -> bool {
        self == Flaw::BaseUnaligned || self.calls() == Call::SENDINGS && self.answer() == Error::Denied
    }
}

/// Every wrong way: a call and what is wrong with it.
pub fn wrong_ways() -> Vec<(Call, Flaw)> {
    Flaw::ALL
        .into_iter()
        .flat_map(|flaw| flaw.calls().iter().map(move |&call| (call, flaw)))
        .collect()
}

/// Flaws that must win over a later test's answer, each as the only one of its own answer.
pub fn first_flaws() -> Vec<(Call, Flaw, Error)> {
    let flaws = [
        Flaw::WordZeroMore,
        Flaw::KindZero,
        Flaw::ReceiverN,
        Flaw::ReceiverCaller,
        Flaw::BaseUnaligned,
        Flaw::BaseOfM,
        Flaw::BaseBeyondHalf,
        Flaw::BasesEqual,
        Flaw::BasesDescend,
    ];
    let mut ways = vec![(Call::Send, Flaw::ReceiverCaller, Error::Busy)];
    for call in Call::SENDINGS {
        ways.extend(flaws.map(|flaw| (call, flaw, Error::Denied)));
    }
    ways
}

/// Calls with two things wrong whose answers differ: the first must win.
pub fn double_ways() -> Vec<(Call, Error, Error)> {
    let mut ways = vec![
        (Call::Run, Error::Denied, Error::Invalid),
        (Call::Send, Error::Invalid, Error::Busy),
    ];
    for call in Call::SENDINGS {
        ways.push((call, Error::Invalid, Error::Denied));
        ways.push((call, Error::Invalid, Error::NoMemory));
        ways.push((call, Error::Denied, Error::NoMemory));
    }
    ways
}
