//! The questions that are asked of a set.

/// What is asked at a place. The answer is a number: 1 for yes and 0 for no, and 0 where there is no such bay.
#[derive(Clone, Copy, Debug, PartialEq, Eq, Hash)]
#[repr(u32)]
pub enum Question {
    /// Whether the place is a member, of whatever sort is asked.
    Holds = 0,
    /// The smallest bay of the sort at or after the place.
    Next = 1,
    /// The largest bay of the sort at or before the place.
    Previous = 2,
    /// How many bays of the sort lie from 1 to the place.
    Rank = 3,
    /// The bay of the sort with this number, counted from 1.
    Select = 4,
}

/// The bays of a set, or the others.
#[derive(Clone, Copy, Debug, PartialEq, Eq, Hash)]
#[repr(u32)]
pub enum Sort {
    Members = 0,
    Others = 1,
}
