//! The nodes of the tree and their words.

use crate::switch::Kind;

/// Words of one node in the lent room.
pub const NODE_WORDS: usize = 8;

/// No tree larger than this is ever given, however much room is lent.
pub const MOST_NODES: usize = 1_000_000;

/// Earliest and latest of something: a tick or a remaining time.
#[derive(Clone, Copy, Debug, PartialEq, Eq)]
pub struct Span {
    pub earliest: u32,
    pub latest: u32,
}

impl Span {
    pub fn at(tick: u32) -> Span {
        Span { earliest: tick, latest: tick }
    }

    pub fn not_before(self, tick: u32) -> Span {
        Span { earliest: self.earliest.max(tick), latest: self.latest.max(tick) }
    }

    /// The sum of two spans that vary independently.
    pub fn plus(self, other: Span) -> Span {
        Span { earliest: self.earliest + other.earliest, latest: self.latest + other.latest }
    }

    /// What is left of an end in this span if it is cut short at `tick`: at least one tick.
    pub fn left_after(self, tick: u32) -> Span {
        let earliest = self.earliest.saturating_sub(tick).max(1);
        Span { earliest, latest: self.latest - tick }
    }

    /// Widens the span to take in one more tick.
    pub fn take_in(&mut self, tick: u32) {
        self.earliest = self.earliest.min(tick);
        self.latest = self.latest.max(tick);
    }
}

#[derive(Clone, Copy, Debug, PartialEq, Eq)]
pub struct Node {
    pub parent: u32,
    pub kind: Kind,
    pub job: u32,
    pub segment: u32,
    pub leaving: Span,
    pub start: Span,
}

impl Node {
    pub fn words(&self) -> [u32; NODE_WORDS] {
        [
            self.parent,
            self.kind.word(),
            self.job,
            self.segment,
            self.leaving.earliest,
            self.leaving.latest,
            self.start.earliest,
            self.start.latest,
        ]
    }
}

#[derive(Clone, Copy, Debug, Default, PartialEq, Eq)]
pub struct TreeSize {
    pub nodes: u32,
    pub orders: u32,
}
