//! Who is dispatched, found in one step. Used by `judge` and `walk`; the kernel has its own plain
//! rule, so that the two can be held against each other.
//!
//! An unfinished job stands in one of few ways: not begun, or begun with one of its segments
//! present. How urgent it is depends on nothing else. So all ways to stand are ranked once, and
//! from then on the job to dispatch is the lowest bit in a set of ranks.

use crate::jobs::JobSet;
use crate::table::Table;

/// A way in which a job can stand.
#[derive(Clone, Copy, Debug)]
pub struct Stand {
    pub job: u8,
    /// The present segment, counted within the set.
    pub segment: u8,
    /// The current priority; a later release comes first only with a larger one.
    pub priority: u8,
    rank: u8,
}

/// How all unfinished jobs stand, as a set of ranks. Small enough to be handed on by value, so that
/// going back to an earlier state is simply to use it again.
#[derive(Clone, Copy, Debug, PartialEq, Eq)]
pub struct Standing(u128);

pub struct Ranking {
    /// Most urgent first.
    by_rank: Vec<Stand>,
    /// The rank of each segment's job when it is begun and this segment is present.
    begun: [u8; Table::MOST_SEGMENTS],
    /// For each count of released jobs all ranks these jobs can have.
    released: [u128; Table::MOST_JOBS + 1],
    fresh: Standing,
}

impl Ranking {
    pub fn new(set: &JobSet) -> Ranking {
        let mut ranking = Ranking {
            by_rank: Vec::with_capacity(set.most_switches()),
            begun: [0; Table::MOST_SEGMENTS],
            released: [0; Table::MOST_JOBS + 1],
            fresh: Standing(0),
        };
        for (rank, key) in sorted_keys(set).into_iter().enumerate() {
            let [below_top, fresh, job, segment] = key.to_be_bytes();
            let rank = rank as u8;
            ranking.by_rank.push(Stand { job, segment, priority: u8::MAX - below_top, rank });
            if fresh == 1 {
                ranking.fresh.0 |= 1 << rank;
            } else {
                ranking.begun[usize::from(segment)] = rank;
            }
            ranking.released[usize::from(job) + 1] |= 1 << rank;
        }
        for count in 1..=set.jobs.len() {
            ranking.released[count] |= ranking.released[count - 1];
        }
        ranking
    }

    /// No job has begun.
    pub fn fresh(&self) -> Standing {
        self.fresh
    }

    /// The job to dispatch once the first `released` jobs are; none if all of those are finished.
    #[inline]
    pub fn choose(&self, standing: Standing, released: usize) -> Option<&Stand> {
        let ready = standing.0 & self.released[released];
        self.by_rank.get(ready.trailing_zeros() as usize)
    }

    /// The job is dispatched and so begun.
    #[inline]
    pub fn begin(&self, standing: Standing, stand: &Stand) -> Standing {
        let begun = self.begun[usize::from(stand.segment)];
        Standing(standing.0 & !(1 << stand.rank) | 1 << begun)
    }

    /// The begun job of this segment is finished.
    #[inline]
    pub fn finish(&self, standing: Standing, segment: usize) -> Standing {
        Standing(standing.0 & !(1 << self.begun[segment]))
    }

    /// The begun job of this segment moves to its next segment.
    #[inline]
    pub fn step(&self, standing: Standing, segment: usize) -> Standing {
        Standing(self.finish(standing, segment).0 | 1 << self.begun[segment + 1])
    }
}

/// Every way to stand as one number, in the order of dispatch: the larger priority, then begun
/// before not begun, then the lower job number.
fn sorted_keys(set: &JobSet) -> Vec<u32> {
    let key = |priority: u8, fresh: bool, job: usize, segment: usize| {
        u32::from_be_bytes([u8::MAX - priority, u8::from(fresh), job as u8, segment as u8])
    };
    let mut keys = Vec::with_capacity(set.most_switches());
    for (job, record) in set.jobs.iter().enumerate() {
        keys.push(key(record.base, true, job, record.first));
        for segment in record.first..record.end {
            keys.push(key(set.segments[segment].priority, false, job, segment));
        }
    }
    keys.sort_unstable();
    keys
}

/// The first release before `end` of a job above `priority`, of those after the first `released`.
#[inline]
pub fn next_above(set: &JobSet, released: usize, priority: u8, end: u32) -> Option<u32> {
    set.jobs[released..]
        .iter()
        .take_while(|job| job.release < end)
        .find(|job| job.base > priority)
        .map(|job| job.release)
}
