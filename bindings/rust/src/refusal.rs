use std::error::Error;
use std::fmt;

/// Why a frame, a call, a text or a list was refused. The numbers are those of the protocol.
///
/// ```
/// use weigher::Refusal;
/// assert_eq!(Refusal::BadKind.number(), 4);
/// assert_eq!(Refusal::from_number(4), Some(Refusal::BadKind));
/// assert_eq!(Refusal::from_number(0), None);
/// assert_eq!(Refusal::BadKind.to_string(), "the kind is not one of 1 to 5");
/// ```
#[derive(Clone, Copy, Debug, PartialEq, Eq, Hash)]
#[repr(u8)]
pub enum Refusal {
    /// A frame's body has under 2 bytes.
    ShortBody = 1,
    /// A frame's body has over [`LONGEST_BODY`](crate::LONGEST_BODY) bytes.
    LongBody = 2,
    /// A frame's version is not 1.
    BadVersion = 3,
    /// A frame's kind is not one of 1 to 5.
    BadKind = 4,
    /// A payload has no items, or a part of one, or is a report's and not empty.
    BadPayload = 5,
    /// A call's buffer has under [`ANSWER_ROOM`](crate::ANSWER_ROOM) bytes.
    SmallBuffer = 6,
    /// A call's state is one that no bytes leave.
    BadState = 7,
    /// The stream ended inside a frame.
    Unfinished = 8,
    /// A text has not the form of a [`constant`](crate::constant).
    BadText = 9,
    /// The value of a constant's text is not exactly a finite float.
    Inexact = 10,
    /// A direction byte is above 3, in a frame of kind 3 or for [`bits::fused_in`](crate::bits::fused_in). For a frame it is tried before
    /// [`BadPayload`](Refusal::BadPayload).
    BadDirection = 11,
    /// A list for [`score_with`](crate::score_with) has over [`LONGEST_LIST`](crate::LONGEST_LIST) entries. It is tried before
    /// [`BadEntry`](Refusal::BadEntry).
    ListTooLong = 12,
    /// An entry's x, hi or lo is not finite, or an x is zero or not above the x before it.
    BadEntry = 13,
    /// The first byte of a household sheet's line is above 1, or one of the line's filler bytes is not 0. It is tried after
    /// [`BadPayload`](Refusal::BadPayload); the first bad line decides.
    BadLine = 14,
    /// A line of a household sheet names its own number or a greater one, whether the sheet has that line or not. On one line it is tried
    /// after [`BadLine`](Refusal::BadLine).
    LaterLine = 15,
}

impl Refusal {
    pub fn number(self) -> u8 {
        self as u8
    }

    pub fn from_number(number: u8) -> Option<Refusal> {
        Some(match number {
            1 => Refusal::ShortBody,
            2 => Refusal::LongBody,
            3 => Refusal::BadVersion,
            4 => Refusal::BadKind,
            5 => Refusal::BadPayload,
            6 => Refusal::SmallBuffer,
            7 => Refusal::BadState,
            8 => Refusal::Unfinished,
            9 => Refusal::BadText,
            10 => Refusal::Inexact,
            11 => Refusal::BadDirection,
            12 => Refusal::ListTooLong,
            13 => Refusal::BadEntry,
            14 => Refusal::BadLine,
            15 => Refusal::LaterLine,
            _ => return None,
        })
    }
}

impl fmt::Display for Refusal {
    fn fmt(&self, f: &mut fmt::Formatter<'_>) -> fmt::Result {
        f.write_str(match self {
            Refusal::ShortBody => "the body has under 2 bytes",
            Refusal::LongBody => "the body has over 514 bytes",
            Refusal::BadVersion => "the version is not 1",
            Refusal::BadKind => "the kind is not one of 1 to 5",
            Refusal::BadPayload => {
                "the payload has no items, or a part of one, or is a report's and not empty"
            }
            Refusal::SmallBuffer => "the buffer has under 516 bytes",
            Refusal::BadState => "the state is one that no bytes leave",
            Refusal::Unfinished => "the stream ended inside a frame",
            Refusal::BadText => "the text has not the form of a constant",
            Refusal::Inexact => "the text's value is not exactly a finite float",
            Refusal::BadDirection => "the direction byte is above 3",
            Refusal::ListTooLong => "the list has over 256 entries",
            Refusal::BadEntry => "an entry is not finite, has an x of zero or is out of order",
            Refusal::BadLine => "a line's first byte is above 1, or a filler byte is not 0",
            Refusal::LaterLine => "a line names its own number or a greater one",
        })
    }
}

impl Error for Refusal {}
