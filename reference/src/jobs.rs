//! The job set: what the kernel needs of a table, with the ceilings already applied.

use crate::table::Table;
use crate::tree::Span;

/// A job in table order; `first..end` are its segments within the set.
#[derive(Clone, Copy, Debug)]
pub struct Job {
    pub release: u32,
    pub base: u8,
    pub first: usize,
    pub end: usize,
}

#[derive(Clone, Copy, Debug)]
pub struct Segment {
    pub shortest: u32,
    pub longest: u32,
    /// The current priority of its begun job while this is the present segment.
    pub priority: u8,
}

impl Segment {
    pub fn whole_time(&self) -> Span {
        Span { earliest: self.shortest, latest: self.longest }
    }
}

#[derive(Clone, Debug)]
pub struct JobSet {
    pub frame: u32,
    pub jobs: Vec<Job>,
    pub segments: Vec<Segment>,
}

impl JobSet {
    pub fn new(table: &Table) -> JobSet {
        let ceilings = ceilings(table);
        let mut segments = Vec::with_capacity(table.segments.len());
        let mut jobs = Vec::with_capacity(table.jobs.len());
        for job in &table.jobs {
            let first = segments.len();
            segments.extend(table.segments[job.segments.clone()].iter().map(|segment| Segment {
                shortest: segment.shortest,
                longest: segment.longest,
                priority: locks(segment.held).map(|lock| ceilings[lock]).fold(job.base, u8::max),
            }));
            jobs.push(Job { release: job.release, base: job.base, first, end: segments.len() });
        }
        JobSet { frame: table.frame, jobs, segments }
    }

    /// The tick at which the longest run ends.
    ///
    /// The processor never rests while a job is ready, so the end depends on the work alone and not
    /// on the order in which it is done.
    pub fn latest_end(&self) -> u32 {
        self.jobs.iter().fold(0, |clock, job| {
            let work: u32 = self.segments[job.first..job.end].iter().map(|s| s.longest).sum();
            clock.max(job.release) + work
        })
    }

    /// How many jobs are released at or before this tick, given that the first `known` are.
    pub fn released_by(&self, tick: u32, known: usize) -> usize {
        known + self.jobs[known..].iter().take_while(|job| job.release <= tick).count()
    }

    /// No log and no path of the tree is longer than this.
    pub fn most_switches(&self) -> usize {
        self.jobs.len() + self.segments.len()
    }
}

fn ceilings(table: &Table) -> [u8; Table::LOCKS] {
    let mut ceilings = [0; Table::LOCKS];
    for job in &table.jobs {
        for segment in &table.segments[job.segments.clone()] {
            for lock in locks(segment.held) {
                ceilings[lock] = ceilings[lock].max(job.base + 1);
            }
        }
    }
    ceilings
}

/// The numbers of the locks in a held set, lowest first.
fn locks(mut held: u16) -> impl Iterator<Item = usize> {
    std::iter::from_fn(move || {
        let lock = (held != 0).then(|| held.trailing_zeros() as usize)?;
        held &= held - 1;
        Some(lock)
    })
}
