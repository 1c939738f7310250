//! Why a call is refused.

use core::error::Error;
use core::fmt;

/// Why a call is refused, by the paper's words and numbers. They are tried in this order, and the first that holds is given.
///
/// A refusal alters nothing, except that [`NoRoom`](Refusal::NoRoom) and [`TimedOut`](Refusal::TimedOut) close the asker's own call.
///
/// ```
/// use saltbalance::Refusal;
///
/// assert_eq!(Refusal::NoRoom.number(), 14);
/// assert_eq!(Refusal::from_number(14), Some(Refusal::NoRoom));
/// assert_eq!(Refusal::NoRoom.to_string(), "no room (refusal 14)");
/// ```
#[repr(u8)]
#[non_exhaustive]
#[derive(Clone, Copy, Debug, PartialEq, Eq, PartialOrd, Ord, Hash)]
pub enum Refusal {
    /// The shape's numbers lie outside the limits. Given by all calls.
    ShapeNotAllowed = 1,
    /// A lent table has the wrong length. Given by all calls.
    WrongLength = 2,
    /// The tables are no valid state. Given by all calls but build.
    NotValid = 3,
    /// The shape has no such thread. Given by ask, go on, give back and switch.
    NoThread = 4,
    /// The thread is not the one that runs. Given by ask, go on and give back.
    NotRunning = 5,
    /// The thread's call waits, so it cannot run. Given by switch.
    IsBlocked = 6,
    /// The thread has a call open already. Given by ask and give back.
    CallOpen = 7,
    /// The thread has no call open. Given by go on.
    NoCall = 8,
    /// The size is above the top size. Given by ask.
    SizeAboveTop = 9,
    /// The wait is outside −1 to 600,000. Given by ask.
    WaitOutside = 10,
    /// The id names no block of this pool. Given by give back.
    IdOutside = 11,
    /// The block is not held by anybody. Given by give back.
    NotAllocated = 12,
    /// Another thread holds the block. Given by give back.
    NotOwner = 13,
    /// There is no room, and the call may not wait: it is closed. Given by go on.
    NoRoom = 14,
    /// The time is over: the call is closed. Given by go on.
    TimedOut = 15,
    /// The clock is at its end. Given by tick.
    ClockAtEnd = 16,
    /// A script's record is bad. Given by the script program, and by no call of this crate.
    BadRecord = 17,
    /// The offset lies outside the pool. Given by cover.
    OffsetOutside = 18,
    /// The row is shorter than the map. Given by map.
    RowTooShort = 19,
}

impl Refusal {
    /// The paper's number of this refusal.
    #[must_use]
    pub fn number(self) -> usize {
        self as usize
    }

    /// The refusal with this number, if there is one.
    #[must_use]
    pub fn from_number(number: usize) -> Option<Refusal> {
        Some(match number {
            1 => Refusal::ShapeNotAllowed,
            2 => Refusal::WrongLength,
            3 => Refusal::NotValid,
            4 => Refusal::NoThread,
            5 => Refusal::NotRunning,
            6 => Refusal::IsBlocked,
            7 => Refusal::CallOpen,
            8 => Refusal::NoCall,
            9 => Refusal::SizeAboveTop,
            10 => Refusal::WaitOutside,
            11 => Refusal::IdOutside,
            12 => Refusal::NotAllocated,
            13 => Refusal::NotOwner,
            14 => Refusal::NoRoom,
            15 => Refusal::TimedOut,
            16 => Refusal::ClockAtEnd,
            17 => Refusal::BadRecord,
            18 => Refusal::OffsetOutside,
            19 => Refusal::RowTooShort,
            _ => return None,
        })
    }

    /// The paper's words for this refusal.
    fn words(self) -> &'static str {
        match self {
            Refusal::ShapeNotAllowed => "shape not allowed",
            Refusal::WrongLength => "a lent table has the wrong length",
            Refusal::NotValid => "tables are no valid state",
            Refusal::NoThread => "no such thread",
            Refusal::NotRunning => "thread is not running",
            Refusal::IsBlocked => "thread is blocked",
            Refusal::CallOpen => "a call is open",
            Refusal::NoCall => "no call is open",
            Refusal::SizeAboveTop => "size above the top size",
            Refusal::WaitOutside => "wait outside -1 to 600,000",
            Refusal::IdOutside => "the id is outside this pool",
            Refusal::NotAllocated => "block not allocated",
            Refusal::NotOwner => "another thread's block",
            Refusal::NoRoom => "no room",
            Refusal::TimedOut => "timed out",
            Refusal::ClockAtEnd => "clock at its end",
            Refusal::BadRecord => "script record bad",
            Refusal::OffsetOutside => "offset outside the pool",
            Refusal::RowTooShort => "row shorter than the map",
        }
    }
}

impl fmt::Display for Refusal {
    fn fmt(&self, out: &mut fmt::Formatter<'_>) -> fmt::Result {
        write!(out, "{} (refusal {})", self.words(), self.number())
    }
}

impl Error for Refusal {}
