//! Spoiling what is right: bytes, times, logs and the lengths of lent buffers.

use super::Random;
use crate::draft::Draft;
use crate::jobs::JobSet;
use crate::switch::NONE;
use crate::table::{Segment, Table};

/// Words at the edges of what numbers can be.
const EDGES: [u32; 10] = [0, 1, 2, 8, 9, 200, 201, 1_000_000, 1_000_001, NONE];

/// Changes the bytes of a table in one or two places.
pub fn bytes(random: &mut Random, bytes: &mut Vec<u8>) {
    for _ in 0..random.between(1, 2) {
        let place = random.below(bytes.len() + 1);
        let rest = bytes.len() - place;
        match random.below(7) {
            0 => bytes.truncate(place),
            1 => bytes.insert(place, random.one_of(b"FRJBSG\0\x01\xFF")),
            2 if rest > 0 => drop(bytes.remove(place)),
            3 => drop(bytes.splice(place..place, random.one_of(&[*b"FR", *b"JB", *b"SG"]))),
            4 if rest >= 4 => {
                let edge = random.one_of(&EDGES).to_le_bytes();
                bytes[place..place + 4].copy_from_slice(&edge);
            }
            5 if rest > 0 => bytes[place] = random.draw() as u8,
            _ if rest > 0 => bytes[place] ^= 1 << random.below(8),
            _ => bytes.push(random.draw() as u8),
        }
    }
}

/// Puts one number of a table at or beyond an edge, or the jobs out of order or number.
pub fn draft(random: &mut Random, draft: &mut Draft) {
    let edge = random.one_of(&EDGES);
    let job = random.below(draft.jobs.len());
    let segment = random.below(draft.jobs[job].segments.len());
    match random.below(9) {
        0 => draft.frame = edge,
        1 => draft.jobs[job].release = edge,
        2 => draft.jobs[job].release = draft.frame - random.between(0, 1),
        3 => draft.jobs[job].base = edge as u8,
        4 => draft.jobs[job].segments[segment].shortest = edge,
        5 => draft.jobs[job].segments[segment].longest = edge,
        6 => draft.jobs.swap(0, job),
        7 => draft.jobs[job].segments.resize(random.one_of(&[0, 8, 9]), ONE_TICK),
        _ => crowd(random, draft),
    }
}

const ONE_TICK: Segment = Segment { shortest: 1, longest: 1, held: 0 };

/// Repeats the last job until a limit on jobs, segments or bytes is near, or passed by a little.
fn crowd(random: &mut Random, draft: &mut Draft) {
    let last = draft.jobs[draft.jobs.len() - 1].clone();
    let segments = last.segments.len().max(1);
    let wanted = match random.below(4) {
        0 => Table::MOST_JOBS,
        1 => Table::MOST_SEGMENTS / segments,
        2 => Table::MOST_BYTES / (8 + 12 * segments),
        _ => 0,
    };
    let wanted = (wanted + random.below(4)).saturating_sub(1);
    if wanted > draft.jobs.len() {
        draft.jobs.resize(wanted, last);
    }
    if random.once_in(2) {
        draft.frame = draft.latest_end().min(1_000_000);
    }
}

/// Makes a list of times wrong in its length or in one time; now and then it stays right.
pub fn times(random: &mut Random, set: &JobSet, times: &mut Vec<u32>) {
    let place = random.below(times.len());
    match random.below(7) {
        0 => drop(times.pop()),
        1 => times.push(random.between(1, 3)),
        2 => times.clear(),
        3 => times[place] = set.segments[place].shortest - 1,
        4 => times[place] = set.segments[place].longest + 1,
        5 => times[place] = random.one_of(&EDGES),
        _ => times[place] = random.word(),
    }
}

/// Changes a log in one or two places; it may happen to be the log of another run.
pub fn log(random: &mut Random, log: &mut Vec<u32>) {
    if random.once_in(4) {
        return shift_tick(random, log);
    }
    for _ in 0..random.between(1, 2) {
        if log.is_empty() {
            return log.push(random.word());
        }
        let place = random.below(log.len());
        let switch = place / 4 * 4;
        match random.below(12) {
            0 => log.truncate(place),
            1 => log.truncate(switch),
            2 => log.push(random.one_of(&EDGES)),
            3 => log.extend_from_within(switch.min(log.len() - 1)..),
            4 => log[place] = random.one_of(&EDGES),
            5 => log[place] = random.word(),
            6 => log[place] = random.between(0, 3),
            7 => log[place] = log[place].wrapping_add(1),
            8 => log[place] = log[place].wrapping_sub(1),
            9 => log.resize(log.len() + random.below(2_000), NONE),
            10 => drop(log.drain(switch..(switch + 4).min(log.len()))),
            _ => shift_tick(random, log),
        }
    }
}

/// A set with one rule changed. The logs of its runs are whole and sound, and mostly of no run of
/// the set they are shown to.
pub fn neighbour(random: &mut Random, set: &JobSet) -> JobSet {
    let mut other = set.clone();
    let segment = random.below(set.segments.len());
    let job = random.below(set.jobs.len());
    match random.below(5) {
        0 => other.segments[segment].priority = random.between(1, 201) as u8,
        1 => other.segments[segment].priority = set.jobs[job].base + 1,
        2 => other.jobs[job].base = set.jobs[random.below(set.jobs.len())].base,
        3 => other.segments[segment].longest += 1,
        _ => {
            // Only as far as the jobs stay in the order of their releases.
            let latest = set.jobs.get(job + 1).map_or(set.jobs[job].release + 1, |j| j.release);
            other.jobs[job].release = latest.min(set.jobs[job].release + 1);
        }
    }
    other
}

/// Moves the tick of one switch a little, which often gives the log of another run.
fn shift_tick(random: &mut Random, log: &mut [u32]) {
    let place = random.below(log.len()) / 4 * 4 + 1;
    if let Some(tick) = log.get_mut(place) {
        *tick = tick.wrapping_add(random.between(0, 4)).wrapping_sub(2);
    }
}

/// A length to lend around the `needed` one: exact, a little less or more, none, or plenty.
pub fn length(random: &mut Random, needed: usize, unit: usize) -> usize {
    match random.below(10) {
        0..=3 => needed,
        4 => needed.saturating_sub(1),
        5 => needed + 1,
        6 => (needed + random.below(2 * unit + 1)).saturating_sub(unit),
        7 => random.below(needed + 1),
        8 => needed + random.below(8 * unit),
        _ => random.below(unit + 1),
    }
}
