//! Reading the bytes of a table: refusals 1 to 4, and the part of one job.

use std::ops::{Range, RangeInclusive};

use crate::refusal::Refusal;

/// One SG record.
#[derive(Clone, Copy, Debug, PartialEq, Eq)]
pub struct Segment {
    pub shortest: u32,
    pub longest: u32,
    /// Bit k is set if lock k is held.
    pub held: u16,
}

/// One JB record and where its SG records are.
#[derive(Clone, Debug, PartialEq, Eq)]
pub struct Job {
    pub release: u32,
    pub base: u8,
    /// Indices into the segments of the table.
    pub segments: Range<usize>,
    /// The bytes of the JB record and its SG records.
    pub part: Range<usize>,
}

/// A table that read whole and keeps every bound.
#[derive(Clone, Debug, PartialEq, Eq)]
pub struct Table {
    pub frame: u32,
    pub jobs: Vec<Job>,
    pub segments: Vec<Segment>,
}

impl Table {
    pub const MOST_BYTES: usize = 4_096;
    pub const MOST_JOBS: usize = 32;
    pub const MOST_SEGMENTS: usize = 64;
    pub const SEGMENTS_A_JOB: RangeInclusive<usize> = 1..=8;
    pub const FRAMES: RangeInclusive<u32> = 1..=1_000_000;
    pub const BASES: RangeInclusive<u8> = 1..=200;
    pub const TIMES: RangeInclusive<u32> = 1..=1_000_000;
    pub const LOCKS: usize = 16;

    /// Reads a table, or gives the lowest of the refusals 1 to 4 that applies.
    pub fn read(bytes: &[u8]) -> Result<Table, Refusal> {
        // Each question is put to the whole table before the next, because the lowest number wins
        // wherever in the bytes it arises.
        let table = Table::read_records(bytes).ok_or(Refusal::Unreadable)?;
        if !table.keeps_bounds() {
            return Err(Refusal::OutOfBounds);
        }
        if table.jobs.windows(2).any(|pair| pair[1].release < pair[0].release) {
            return Err(Refusal::ReleasesFall);
        }
        if !(1..=Table::MOST_JOBS).contains(&table.jobs.len())
            || table.segments.len() > Table::MOST_SEGMENTS
        {
            return Err(Refusal::WrongAmount);
        }
        Ok(table)
    }

    fn read_records(bytes: &[u8]) -> Option<Table> {
        if bytes.len() > Table::MOST_BYTES {
            return None;
        }
        let mut records = Records { rest: bytes };
        let frame = u32::from_le_bytes(records.take(b"FR")?);
        let mut table = Table { frame, jobs: Vec::new(), segments: Vec::new() };
        while !records.rest.is_empty() {
            let start = bytes.len() - records.rest.len();
            let mut job = table.read_job(&mut records)?;
            job.part = start..bytes.len() - records.rest.len();
            table.jobs.push(job);
        }
        Some(table)
    }

    /// Reads a JB record and as many SG records as it counts; the caller knows the part.
    fn read_job(&mut self, records: &mut Records) -> Option<Job> {
        let [r0, r1, r2, r3, base, count] = records.take(b"JB")?;
        let first = self.segments.len();
        for _ in 0..count {
            let [s0, s1, s2, s3, l0, l1, l2, l3, h0, h1] = records.take(b"SG")?;
            self.segments.push(Segment {
                shortest: u32::from_le_bytes([s0, s1, s2, s3]),
                longest: u32::from_le_bytes([l0, l1, l2, l3]),
                held: u16::from_le_bytes([h0, h1]),
            });
        }
        Some(Job {
            release: u32::from_le_bytes([r0, r1, r2, r3]),
            base,
            segments: first..self.segments.len(),
            part: 0..0,
        })
    }

    fn keeps_bounds(&self) -> bool {
        let job_keeps = |job: &Job| {
            job.release < self.frame
                && Table::BASES.contains(&job.base)
                && Table::SEGMENTS_A_JOB.contains(&job.segments.len())
        };
        let segment_keeps = |segment: &Segment| {
            Table::TIMES.contains(&segment.shortest)
                && Table::TIMES.contains(&segment.longest)
                && segment.shortest <= segment.longest
        };
        Table::FRAMES.contains(&self.frame)
            && self.jobs.iter().all(job_keeps)
            && self.segments.iter().all(segment_keeps)
    }
}

/// The bytes of one job within the caller's own table; empty and at the end if there is none.
pub fn part_of(bytes: &[u8], job: u32) -> &[u8] {
    let found = Table::read(bytes)
        .ok()
        .and_then(|table| table.jobs.get(job as usize).map(|job| job.part.clone()));
    &bytes[found.unwrap_or(bytes.len()..bytes.len())]
}

/// The bytes not read yet.
struct Records<'a> {
    rest: &'a [u8],
}

impl Records<'_> {
    /// The content of the next record if it has this mark and is not cut off.
    fn take<const SIZE: usize>(&mut self, mark: &[u8; 2]) -> Option<[u8; SIZE]> {
        let after_mark = self.rest.strip_prefix(mark)?;
        let content = after_mark.get(..SIZE)?.try_into().ok()?;
        self.rest = &after_mark[SIZE..];
        Some(content)
    }
}
