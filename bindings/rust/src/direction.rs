/// A direction of rounding, with its byte in the protocol.
///
/// ```
/// use weigher::Direction;
/// assert_eq!(Direction::Up.byte(), 2);
/// assert_eq!(Direction::from_byte(2), Some(Direction::Up));
/// assert_eq!(Direction::from_byte(4), None);
/// ```
#[derive(Clone, Copy, Debug, PartialEq, Eq, Hash)]
#[repr(u8)]
pub enum Direction {
    /// The nearest float, a tie to the even one.
    Nearest = 0,
    /// The nearest float that is not larger in size.
    TowardZero = 1,
    /// The least float that is not below, or +infinity.
    Up = 2,
    /// The greatest float that is not above, or -infinity.
    Down = 3,
}

impl Direction {
    pub fn byte(self) -> u8 {
        self as u8
    }

    pub fn from_byte(byte: u8) -> Option<Direction> {
        Some(match byte {
            0 => Direction::Nearest,
            1 => Direction::TowardZero,
            2 => Direction::Up,
            3 => Direction::Down,
            _ => return None,
        })
    }
}
