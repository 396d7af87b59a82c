//! What a call left behind, all of it.

use vlodenka_reference::refusal::{number_of, Refusal};
use vlodenka_reference::{archive, services};

use crate::case::{Case, Question};

/// Words on each side of the lent ones, to see a write outside them.
const GUARD: usize = 16;

#[derive(PartialEq, Eq)]
pub struct Outcome {
    pub refusal: u32,
    counts: [u32; 2],
    /// The lent words between their guards.
    words: Vec<u32>,
    /// Whether what was lent for reading is as it was.
    inputs_kept: bool,
}

/// A pattern in which no two neighbouring words are alike.
fn patterned(len: usize) -> Vec<u32> {
    (0..len as u32).map(|place| 0xA5C3_0000 ^ place.wrapping_mul(0x0101_0107)).collect()
}

/// Lends words between guards; gives back what the call says and all of the words.
fn lending<T>(len: usize, call: impl FnOnce(&mut [u32]) -> T) -> (T, Vec<u32>) {
    let mut words = patterned(len + 2 * GUARD);
    let answer = call(&mut words[GUARD..GUARD + len]);
    (answer, words)
}

pub fn of_reference(case: &Case) -> Outcome {
    let table = &case.table[..];
    let outcome = |refusal, counts, words| Outcome { refusal, counts, words, inputs_kept: true };
    match &case.question {
        Question::Replay { times, log_len } => {
            let (answer, words) = lending(*log_len, |log| services::replay(table, times, log));
            outcome(number_of(&answer), [answer.unwrap_or(0), 0], words)
        }
        Question::Judge { log, times_len } => {
            let (answer, words) = lending(*times_len, |times| services::judge(table, log, times));
            outcome(number_of(&answer), [0, 0], words)
        }
        Question::Tree { words_len } => {
            let (answer, words) = lending(*words_len, |words| services::tree(table, words));
            let size = answer.unwrap_or_default();
            outcome(number_of(&answer), [size.nodes, size.orders], words)
        }
        Question::Part { job } => {
            let part = services::part(table, *job);
            let start = part.as_ptr() as usize - table.as_ptr() as usize;
            let done: Result<(), Refusal> = Ok(());
            outcome(number_of(&done), [start as u32, part.len() as u32], Vec::new())
        }
    }
}

pub fn of_archive(case: &Case) -> Outcome {
    let mut shifted = vec![0xEE; case.offset];
    shifted.extend(&case.table);
    let table = &shifted[case.offset..];
    let mut inputs_kept = true;
    let (answer, words) = match &case.question {
        Question::Replay { times, log_len } => {
            let lent = times.clone();
            let ended = lending(*log_len, |log| archive::replay(table, &lent, log));
            inputs_kept = lent == *times;
            ended
        }
        Question::Judge { log, times_len } => {
            let lent = log.clone();
            let ended = lending(*times_len, |times| archive::judge(table, &lent, times));
            inputs_kept = lent == *log;
            ended
        }
        Question::Tree { words_len } => lending(*words_len, |words| archive::tree(table, words)),
        Question::Part { job } => (archive::part(table, *job), Vec::new()),
    };
    inputs_kept &= table == case.table;
    Outcome { refusal: answer.refusal, counts: answer.counts, words, inputs_kept }
}

/// Both outcomes in short, and the first word in which they differ.
pub fn difference(wanted: &Outcome, found: &Outcome) -> String {
    let mut text = format!(
        "reference: refusal {}, counts {:?}\narchive:   refusal {}, counts {:?}",
        wanted.refusal, wanted.counts, found.refusal, found.counts
    );
    let pairs = wanted.words.iter().zip(&found.words).enumerate();
    if let Some((place, (left, right))) = pairs.clone().find(|(_, (left, right))| left != right) {
        let place = place as i64 - GUARD as i64;
        let many = pairs.filter(|(_, (left, right))| left != right).count();
        text.push_str(&format!("\n{many} words differ, first word {place}: "));
        text.push_str(&format!("reference {left:08x}, archive {right:08x}"));
    }
    if !found.inputs_kept {
        text.push_str("\nthe archive changed its input");
    }
    text
}
