//! One question to one service, and how it is made up.

use vlodenka_reference::jobs::JobSet;
use vlodenka_reference::kernel;
use vlodenka_reference::limit;
use vlodenka_reference::random::{damage, tables, Random};
use vlodenka_reference::rooms;
use vlodenka_reference::switch::{log_words, SWITCH_WORDS};
use vlodenka_reference::table::Table;
use vlodenka_reference::tree::NODE_WORDS;

pub const SERVICE_NAMES: [&str; 4] = ["replay", "judge", "tree", "part"];

pub enum Question {
    Replay { times: Vec<u32>, log_len: usize },
    Judge { log: Vec<u32>, times_len: usize },
    Tree { words_len: usize },
    Part { job: u32 },
}

pub struct Case {
    /// The table stands behind this many other bytes, so that it starts at any address.
    pub offset: usize,
    pub table: Vec<u8>,
    pub question: Question,
}

impl Case {
    pub fn random(random: &mut Random) -> Case {
        let offset = random.below(8);
        let service = random.below(4);
        // A part is found by reading alone, so half of its tables are spoilt.
        let spoilt = if service == 3 { 2 } else { 8 };
        let table = table(random, service == 0, spoilt);
        let set = Table::read(&table).ok().map(|table| JobSet::new(&table));
        let question = match service {
            0 => replay(random, set),
            1 => judge(random, set),
            2 => tree(random, set),
            _ => part(random, set),
        };
        Case { offset, table, question }
    }

    /// The place of the service among the names.
    pub fn service(&self) -> usize {
        match self.question {
            Question::Replay { .. } => 0,
            Question::Judge { .. } => 1,
            Question::Tree { .. } => 2,
            Question::Part { .. } => 3,
        }
    }

    /// The whole input, for repeating the case by other means.
    pub fn in_hex(&self) -> String {
        let table: String = self.table.iter().map(|byte| format!("{byte:02x}")).collect();
        let words =
            |words: &[u32]| -> String { words.iter().map(|word| format!(" {word:08x}")).collect() };
        let question = match &self.question {
            Question::Replay { times, log_len } => {
                format!("times{}\nlog_len {log_len}", words(times))
            }
            Question::Judge { log, times_len } => {
                format!("log{}\ntimes_len {times_len}", words(log))
            }
            Question::Tree { words_len } => format!("words_len {words_len}"),
            Question::Part { job } => format!("job {job}"),
        };
        let service = SERVICE_NAMES[self.service()];
        format!("{service}\ntable {table}\noffset {}\n{question}", self.offset)
    }
}

/// The tree at its own limit of 1,000,000 nodes, in every room around it.
pub fn at_the_limit() -> Vec<(&'static str, Case)> {
    let most = 8_000_000;
    let rooms = [
        ("1,000,000 nodes in exactly enough room", false, most),
        ("1,000,000 nodes in one word too little", false, most - 1),
        ("1,000,000 nodes in more room than counts", false, most + 17),
        ("1,000,001 nodes in exactly enough room", true, most + 8),
        ("1,000,001 nodes in more room than counts", true, most + 800),
    ];
    let case = |one_more, words_len| {
        let table = limit::table(one_more).bytes();
        Case { offset: 1, table, question: Question::Tree { words_len } }
    };
    rooms.iter().map(|&(name, one_more, words_len)| (name, case(one_more, words_len))).collect()
}

fn table(random: &mut Random, to_run: bool, spoilt: usize) -> Vec<u8> {
    let mut draft = match random.below(10) {
        // Few, because running them takes a million ticks.
        0 if to_run && random.once_in(200) => tables::long(random),
        0..=3 => tables::small(random),
        _ => tables::any_size(random),
    };
    if random.once_in(spoilt) {
        damage::draft(random, &mut draft);
    }
    let mut bytes = draft.bytes();
    if random.once_in(spoilt) {
        damage::bytes(random, &mut bytes);
    }
    bytes
}

fn replay(random: &mut Random, set: Option<JobSet>) -> Question {
    let mut times = set.as_ref().map_or(vec![1; 3], |set| tables::times(random, set));
    if let Some(set) = set.as_ref().filter(|_| random.once_in(5)) {
        damage::times(random, set, &mut times);
    }
    let log = set.as_ref().and_then(|set| run(set, &times)).unwrap_or_default();
    let log_len = damage::length(random, log.len(), SWITCH_WORDS);
    Question::Replay { times, log_len }
}

fn judge(random: &mut Random, set: Option<JobSet>) -> Question {
    let needed = set.as_ref().map_or(3, |set| set.segments.len());
    let times_len = damage::length(random, needed, 4);
    let source = match set {
        Some(set) if random.once_in(3) => Some(damage::neighbour(random, &set)),
        own => own,
    };
    let run_log = source.and_then(|set| run(&set, &tables::times(random, &set)));
    let mut log = run_log.unwrap_or_else(|| vec![0, 0, 0, 0, 1, 1, u32::MAX, u32::MAX]);
    if random.once_in(3) {
        damage::log(random, &mut log);
    }
    Question::Judge { log, times_len }
}

fn tree(random: &mut Random, set: Option<JobSet>) -> Question {
    let most = if random.once_in(1_000) { 40_000 } else { 1_500 };
    let size = set.and_then(|set| rooms::count(&set, most).ok());
    let nodes = size.map_or(random.below(most), |size| size.nodes as usize);
    Question::Tree { words_len: damage::length(random, nodes * NODE_WORDS, NODE_WORDS) }
}

fn part(random: &mut Random, set: Option<JobSet>) -> Question {
    let jobs = set.map_or(2, |set| set.jobs.len());
    let job = match random.below(8) {
        0 => jobs as u32,
        1 => random.one_of(&[31, 32, 33, 255, 256, 257, 65_536, u32::MAX]),
        _ => random.below(jobs) as u32,
    };
    Question::Part { job }
}

/// The words of the log, unless the times are of no run or the run would take long.
fn run(set: &JobSet, times: &[u32]) -> Option<Vec<u32>> {
    let right = times.len() == set.segments.len() && !times.contains(&0);
    let short = set.latest_end() < 20_000;
    let within = times.iter().all(|&time| time < 20_000);
    (right && short && within).then(|| log_words(&kernel::run(set, times).switches))
}
