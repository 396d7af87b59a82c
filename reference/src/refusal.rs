//! The numbers a call gives when it declines.

/// Why a call declines; the values are the paper's numbers, and 0 is `Ok`.
#[derive(Clone, Copy, Debug, PartialEq, Eq, PartialOrd, Ord)]
pub enum Refusal {
    /// Too long, a wrong or misplaced mark, a record cut off, or SG records missing.
    Unreadable = 1,
    /// A number outside its bounds.
    OutOfBounds = 2,
    /// A job released earlier than the job before it.
    ReleasesFall = 3,
    /// No job, too many jobs, or too many segments.
    WrongAmount = 4,
    /// Some run ends later than the frame.
    FrameTooShort = 5,
    /// Replay: not one time per segment, or one outside its bounds.
    WrongTimes = 6,
    /// The lent room is too small.
    RoomTooSmall = 7,
    /// Judge: the log is of no run.
    NotARun = 8,
}

impl Refusal {
    pub fn number(self) -> u32 {
        self as u32
    }
}

/// The number of any answer, 0 for one that is done.
pub fn number_of<T>(answer: &Result<T, Refusal>) -> u32 {
    match answer {
        Ok(_) => 0,
        Err(refusal) => refusal.number(),
    }
}
