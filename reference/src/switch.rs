//! Switches, and logs as words.

/// Stands for "no job" and "no segment" after the last END, and for "no parent" in the tree.
pub const NONE: u32 = u32::MAX;

/// Words of one switch in a log.
pub const SWITCH_WORDS: usize = 4;

#[derive(Clone, Copy, Debug, PartialEq, Eq)]
pub enum Kind {
    First = 0,
    End = 1,
    Step = 2,
    Cut = 3,
}

impl Kind {
    pub fn word(self) -> u32 {
        self as u32
    }
}

#[derive(Clone, Copy, Debug, PartialEq, Eq)]
pub struct Switch {
    pub kind: Kind,
    /// The tick of leaving.
    pub tick: u32,
    /// What runs next.
    pub job: u32,
    pub segment: u32,
}

impl Switch {
    pub fn words(&self) -> [u32; SWITCH_WORDS] {
        [self.kind.word(), self.tick, self.job, self.segment]
    }
}

/// A whole log as words.
pub fn log_words(switches: &[Switch]) -> Vec<u32> {
    switches.iter().flat_map(|switch| switch.words()).collect()
}
