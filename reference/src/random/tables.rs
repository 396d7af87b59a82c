//! Random tables that read whole, of every size up to the limits.

use super::Random;
use crate::draft::{Draft, DraftJob};
use crate::jobs::JobSet;
use crate::table::{Segment, Table};

/// A table small enough for `brute`, with many ties, locks and idle gaps.
pub fn small(random: &mut Random) -> Draft {
    let jobs = random.one_of(&[1, 2, 3, 3, 4, 4, 5, 5, 6, 6, 7]);
    let horizon = random.one_of(&[0, 4, 7, 10, 10, 13, 16, 30]);
    let bases = random.one_of(&[1, 2, 4, 4, 9]);
    let longest = random.one_of(&[1, 2, 4]);
    let climbing = random.once_in(2);
    let locking = random.one_of(&[0, 10, 50]);
    let mut choices = 1;
    let mut draft = Draft::default();
    for release in releases(random, jobs, horizon) {
        let segments = (0..random.one_of(&[1, 1, 1, 1, 2, 3]))
            .map(|_| {
                // Once the choices multiply too far, the remaining times are fixed.
                let width = if choices > 200 { 0 } else { random.one_of(&[0, 1, 2, 4, 7]) };
                choices *= width + 1;
                let shortest = random.between(1, longest);
                Segment { shortest, longest: shortest + width, held: locks(random, locking) }
            })
            .collect();
        // Bases that climb with the releases make for many cuts.
        let climb = if climbing { draft.jobs.len() as u32 / 2 } else { 0 };
        let base = (random.between(1, bases) + climb) as u8;
        draft.jobs.push(DraftJob { release, base, segments });
    }
    draft.frame = draft.latest_end() + random.one_of(&[0, 0, 1, 7]);
    draft
}

/// A table of any size up to the limits, with short times so that running it is quick.
pub fn any_size(random: &mut Random) -> Draft {
    let jobs = random.between(1, Table::MOST_JOBS as u32);
    let most_extra = Table::MOST_SEGMENTS - jobs as usize;
    let extra = if random.once_in(4) { most_extra } else { random.below(most_extra + 1) };
    let counts = segment_counts(random, jobs as usize, extra);
    let longest = random.one_of(&[1, 2, 4, 4, 9, 9]);
    // Of a hundred times so many are fixed; with none fixed a large table has far too many orders.
    let fixed = random.one_of(&[0, 50, 70, 70, 85, 85, 95]);
    let bases = random.one_of(&[1, 3, 10, 160]);
    let climbing = random.once_in(2);
    let locking = random.one_of(&[0, 5, 40]);
    let work = (jobs + extra as u32) * (longest + 1) / 2;
    let horizon = random.one_of(&[0, work / 4, work / 2, work, work, work * 2]);
    let mut draft = Draft::default();
    for (release, count) in releases(random, jobs, horizon).into_iter().zip(counts) {
        let climb = if climbing { draft.jobs.len() as u32 } else { 0 };
        let base = (random.between(1, bases) + climb) as u8;
        let segments = (0..count).map(|_| segment(random, longest, fixed, locking)).collect();
        draft.jobs.push(DraftJob { release, base, segments });
    }
    draft.frame = frame(random, &draft);
    draft
}

/// Of a hundred such segments about `fixed` have a fixed time and `locking` hold locks.
fn segment(random: &mut Random, longest: u32, fixed: usize, locking: usize) -> Segment {
    let longest = random.between(1, longest);
    let shortest = if random.below(100) < fixed { longest } else { random.between(1, longest) };
    Segment { shortest, longest, held: locks(random, locking) }
}

/// A table of any size with so many times fixed that `brute` can still run every choice of the
/// rest.
pub fn any_size_mostly_fixed(random: &mut Random) -> Draft {
    let mut draft = any_size(random);
    let mut choices = 1;
    let from = random.below(draft.jobs.len());
    // Starting anywhere, so that not only the first jobs keep their choice.
    let (earlier, later) = draft.jobs.split_at_mut(from);
    for job in later.iter_mut().chain(earlier) {
        for segment in &mut job.segments {
            let width = segment.longest - segment.shortest + 1;
            if choices * width > 150 || random.once_in(3) {
                segment.shortest = segment.longest;
            } else {
                choices *= width;
            }
        }
    }
    draft.frame = draft.frame.max(draft.latest_end());
    draft
}

/// A table with times and frame near the largest; running it takes long.
pub fn long(random: &mut Random) -> Draft {
    let jobs = random.between(1, 32);
    let most = 1_000_000 / jobs;
    let mut draft = Draft::new(1_000_000);
    for release in releases(random, jobs, 900_000) {
        let longest = random.between(1, most);
        let shortest = random.between(1, longest);
        let segment = Segment { shortest, longest, held: locks(random, 40) };
        let base = random.between(1, 200) as u8;
        draft.jobs.push(DraftJob { release, base, segments: vec![segment] });
    }
    draft.frame = draft.latest_end().min(1_000_000);
    draft
}

/// One time per segment within its bounds, the bounds themselves more often than the rest.
pub fn times(random: &mut Random, set: &JobSet) -> Vec<u32> {
    let habit = random.below(4);
    set.segments
        .iter()
        .map(|segment| match habit {
            0 => segment.shortest,
            1 => segment.longest,
            _ => random.between(segment.shortest, segment.longest),
        })
        .collect()
}

fn releases(random: &mut Random, jobs: u32, horizon: u32) -> Vec<u32> {
    let first = random.one_of(&[0, 0, 0, 1, 5]);
    let mut releases: Vec<u32> = (0..jobs).map(|_| first + random.between(0, horizon)).collect();
    releases.sort_unstable();
    releases
}

/// Deals the extra segments out among the jobs, at most 8 to each.
fn segment_counts(random: &mut Random, jobs: usize, extra: usize) -> Vec<usize> {
    let most = *Table::SEGMENTS_A_JOB.end();
    let mut counts = vec![1; jobs];
    for _ in 0..extra.min(jobs * (most - 1)) {
        let mut job = random.below(jobs);
        while counts[job] == most {
            job = (job + 1) % jobs;
        }
        counts[job] += 1;
    }
    counts
}

/// Few different locks, so that jobs share them and are held up by their ceilings.
fn locks(random: &mut Random, locking: usize) -> u16 {
    if random.below(100) >= locking {
        return 0;
    }
    match random.below(8) {
        0 => random.draw() as u16,
        1 => 1 << random.below(Table::LOCKS),
        _ => random.one_of(&[1, 2, 3]),
    }
}

/// Mostly long enough, often exactly, sometimes one too short.
fn frame(random: &mut Random, draft: &Draft) -> u32 {
    let end = draft.latest_end();
    match random.below(16) {
        0 => end - 1,
        1 => 1_000_000,
        2..=7 => end,
        _ => end + random.between(1, 50),
    }
}
