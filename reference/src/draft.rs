//! A table under construction, and its bytes.

use crate::table::Segment;

#[derive(Clone, Debug, PartialEq, Eq)]
pub struct DraftJob {
    pub release: u32,
    pub base: u8,
    pub segments: Vec<Segment>,
}

#[derive(Clone, Debug, Default, PartialEq, Eq)]
pub struct Draft {
    pub frame: u32,
    pub jobs: Vec<DraftJob>,
}

impl Draft {
    pub fn new(frame: u32) -> Draft {
        Draft { frame, jobs: Vec::new() }
    }

    /// Adds a job; a segment is shortest, longest and the held locks.
    pub fn job(mut self, release: u32, base: u8, segments: &[(u32, u32, u16)]) -> Draft {
        let segments = segments
            .iter()
            .map(|&(shortest, longest, held)| Segment { shortest, longest, held })
            .collect();
        self.jobs.push(DraftJob { release, base, segments });
        self
    }

    /// The tick at which the longest run ends.
    pub fn latest_end(&self) -> u32 {
        self.jobs.iter().fold(0, |clock, job| {
            clock.max(job.release) + job.segments.iter().map(|s| s.longest).sum::<u32>()
        })
    }

    pub fn bytes(&self) -> Vec<u8> {
        let mut bytes = b"FR".to_vec();
        bytes.extend(self.frame.to_le_bytes());
        for job in &self.jobs {
            bytes.extend(b"JB");
            bytes.extend(job.release.to_le_bytes());
            bytes.extend([job.base, job.segments.len() as u8]);
            for segment in &job.segments {
                bytes.extend(b"SG");
                bytes.extend(segment.shortest.to_le_bytes());
                bytes.extend(segment.longest.to_le_bytes());
                bytes.extend(segment.held.to_le_bytes());
            }
        }
        bytes
    }
}
