//! The services over bytes and lent words, with the refusals exactly as the paper gives them.
//!
//! A lent buffer is written only after nothing can refuse any more.

use crate::jobs::JobSet;
use crate::judge::times_of;
use crate::kernel;
use crate::refusal::Refusal;
use crate::rooms;
use crate::switch::{log_words, SWITCH_WORDS};
use crate::table::Table;
use crate::tree::{TreeSize, MOST_NODES, NODE_WORDS};

pub use crate::table::part_of as part;

/// Reads a table every run of which ends within the frame: refusals 1 to 5.
pub fn job_set(table: &[u8]) -> Result<JobSet, Refusal> {
    let set = JobSet::new(&Table::read(table)?);
    if set.latest_end() > set.frame {
        return Err(Refusal::FrameTooShort);
    }
    Ok(set)
}

/// Runs the table with these times and writes the log; gives the number of switches.
pub fn replay(table: &[u8], times: &[u32], log: &mut [u32]) -> Result<u32, Refusal> {
    let set = job_set(table)?;
    let fits = times.len() == set.segments.len()
        && times
            .iter()
            .zip(&set.segments)
            .all(|(time, segment)| (segment.shortest..=segment.longest).contains(time));
    if !fits {
        return Err(Refusal::WrongTimes);
    }
    let switches = kernel::run(&set, times).switches;
    let lent = log.get_mut(..switches.len() * SWITCH_WORDS).ok_or(Refusal::RoomTooSmall)?;
    lent.copy_from_slice(&log_words(&switches));
    Ok(switches.len() as u32)
}

/// Writes the times of the run that has this log, one per segment.
pub fn judge(table: &[u8], log: &[u32], times: &mut [u32]) -> Result<(), Refusal> {
    let set = job_set(table)?;
    // 7 comes before 8: the room is asked about even if the log is of no run.
    let lent = times.get_mut(..set.segments.len()).ok_or(Refusal::RoomTooSmall)?;
    let found = times_of(&set, log).ok_or(Refusal::NotARun)?;
    lent.copy_from_slice(&found);
    Ok(())
}

/// Writes all nodes of the tree; gives the numbers of nodes and orders.
pub fn tree(table: &[u8], words: &mut [u32]) -> Result<TreeSize, Refusal> {
    let set = job_set(table)?;
    let room = (words.len() / NODE_WORDS).min(MOST_NODES);
    rooms::write(&set, words, room).map_err(|_| Refusal::RoomTooSmall)
}
