//! The shared test vectors: their two formats, and checking each against the services.

use crate::refusal::number_of;
use crate::services;
use crate::switch::NONE;
use crate::table::Table;
use crate::tree::NODE_WORDS;

/// Room of the tree vectors, and more than any log or list of times needs.
const TREE_ROOM: usize = 2_048 * NODE_WORDS;
const LOG_ROOM: usize = 4 * (Table::MOST_JOBS + Table::MOST_SEGMENTS);
const TIMES_ROOM: usize = Table::MOST_SEGMENTS;

/// Lent words hold this until a service writes them.
const UNTOUCHED: u32 = 0xA5A5_5A5A;

/// How many vectors of each sort held.
#[derive(Clone, Copy, Debug, Default, PartialEq, Eq)]
pub struct Held {
    pub readings: usize,
    pub trees: usize,
    pub replays: usize,
    pub judges: usize,
}

/// Checks every vector of a file; the error names the first line that does not hold.
pub fn check(text: &str) -> Result<Held, String> {
    let lines = text.lines().enumerate().filter(|(_, line)| !line.starts_with('#'));
    let lines: Vec<(usize, &str)> = lines.map(|(index, line)| (index + 1, line)).collect();
    if lines.iter().any(|(_, line)| line.starts_with("table ")) {
        check_services(&lines)
    } else {
        check_readings(&lines)
    }
}

/// Three lines a vector: a name, the bytes, the refusal and the parts.
fn check_readings(lines: &[(usize, &str)]) -> Result<Held, String> {
    let mut held = Held::default();
    let vectors = lines.chunks_exact(3);
    if !vectors.remainder().is_empty() {
        return Err("the last vector is cut off".to_string());
    }
    for vector in vectors {
        let (number, name) = vector[0];
        let bytes = bytes_of(vector[1].1)?;
        let found = reading(&bytes);
        if found != vector[2].1 {
            return Err(format!("line {number}, {name}: {found} instead of {}", vector[2].1));
        }
        held.readings += 1;
    }
    Ok(held)
}

/// What reading gives, written as the vectors write it.
fn reading(bytes: &[u8]) -> String {
    let answer = Table::read(bytes);
    let mut text = number_of(&answer).to_string();
    for job in 0..answer.map_or(0, |table| table.jobs.len()) {
        let part = services::part(bytes, job as u32);
        let start = part.as_ptr() as usize - bytes.as_ptr() as usize;
        text.push_str(&format!(" {start}-{}", start + part.len()));
    }
    text
}

/// A `table` line and after it what the services answer.
fn check_services(lines: &[(usize, &str)]) -> Result<Held, String> {
    let mut held = Held::default();
    let mut table = Vec::new();
    let mut rest = lines.iter().peekable();
    while let Some(&(number, line)) = rest.next() {
        let (sort, content) = line.split_once(' ').unwrap_or((line, ""));
        let holds = match sort {
            "table" => {
                table = bytes_of(content)?;
                true
            }
            "tree" => {
                let mut wanted = words_of(content)?;
                let nodes = wanted.get(1).copied().unwrap_or(0);
                for _ in 0..nodes {
                    let (_, node) = rest.next().ok_or("a node is missing")?;
                    wanted.extend(words_of(node)?);
                }
                held.trees += 1;
                tree_answer(&table) == wanted
            }
            "replay" => {
                held.replays += 1;
                let (times, wanted) = question_and_answer(content)?;
                replay_answer(&table, &times) == wanted
            }
            "judge" => {
                held.judges += 1;
                let (log, wanted) = question_and_answer(content)?;
                judge_answer(&table, &log) == wanted
            }
            _ => return Err(format!("line {number}: unknown sort {sort}")),
        };
        if !holds {
            return Err(format!("line {number} does not hold: {line}"));
        }
    }
    Ok(held)
}

/// Refusal, nodes, orders and the words of the nodes.
fn tree_answer(table: &[u8]) -> Vec<u32> {
    let mut words = vec![UNTOUCHED; TREE_ROOM];
    let answer = services::tree(table, &mut words);
    let size = answer.unwrap_or_default();
    let mut all = vec![number_of(&answer), size.nodes, size.orders];
    all.extend(written(&words, size.nodes as usize * NODE_WORDS));
    all
}

/// Refusal and the words of the log.
fn replay_answer(table: &[u8], times: &[u32]) -> Vec<u32> {
    let mut log = vec![UNTOUCHED; LOG_ROOM];
    let answer = services::replay(table, times, &mut log);
    let mut all = vec![number_of(&answer)];
    all.extend(written(&log, answer.unwrap_or(0) as usize * 4));
    all
}

/// Refusal and the times.
fn judge_answer(table: &[u8], log: &[u32]) -> Vec<u32> {
    let mut times = vec![UNTOUCHED; TIMES_ROOM];
    let answer = services::judge(table, log, &mut times);
    let count = answer.and_then(|()| Table::read(table)).map_or(0, |read| read.segments.len());
    let mut all = vec![number_of(&answer)];
    all.extend(written(&times, count));
    all
}

/// The first `count` words; with them anything after that was touched, which then never compares.
fn written(words: &[u32], count: usize) -> impl Iterator<Item = u32> + '_ {
    let touched = words[count..].iter().filter(|&&word| word != UNTOUCHED);
    words[..count].iter().chain(touched).copied()
}

fn question_and_answer(text: &str) -> Result<(Vec<u32>, Vec<u32>), String> {
    let (question, answer) = text.split_once("->").ok_or("no arrow in the line")?;
    Ok((words_of(question)?, words_of(answer)?))
}

/// Words in decimal, `-` for 4,294,967,295, and `nothing` alone for no words at all.
fn words_of(text: &str) -> Result<Vec<u32>, String> {
    if text.trim() == "nothing" {
        return Ok(Vec::new());
    }
    text.split_whitespace()
        .map(|word| match word {
            "-" => Ok(NONE),
            _ => word.parse().map_err(|_| format!("no word: {word}")),
        })
        .collect()
}

/// Bytes in hex, `-` for none at all.
fn bytes_of(text: &str) -> Result<Vec<u8>, String> {
    if text == "-" {
        return Ok(Vec::new());
    }
    text.as_bytes()
        .chunks(2)
        .map(|pair| {
            let digits = std::str::from_utf8(pair).ok().filter(|digits| digits.len() == 2);
            digits
                .and_then(|digits| u8::from_str_radix(digits, 16).ok())
                .ok_or_else(|| format!("no hex: {text}"))
        })
        .collect()
}
