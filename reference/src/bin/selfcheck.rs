//! Holds the reference against the shared vectors and against itself.
//!
//! `selfcheck [--tables N] [--seed S] FILE...`

use std::process::exit;

use vlodenka_reference::draft::Draft;
use vlodenka_reference::jobs::JobSet;
use vlodenka_reference::random::{damage, tables, Random};
use vlodenka_reference::refusal::Refusal;
use vlodenka_reference::switch::log_words;
use vlodenka_reference::tree::NODE_WORDS;
use vlodenka_reference::{brute, judge, kernel, services, vectors};

const UNTOUCHED: u32 = 0x5A5A_A5A5;

fn main() {
    if let Err(difference) = check_all() {
        eprintln!("{difference}");
        exit(1);
    }
}

fn check_all() -> Result<(), String> {
    let mut tables = 20_000;
    let mut seed = 1;
    let mut arguments = std::env::args().skip(1);
    while let Some(argument) = arguments.next() {
        match argument.as_str() {
            "--tables" => tables = number(arguments.next())?,
            "--seed" => seed = number(arguments.next())?,
            file => check_file(file)?,
        }
    }
    check_random(tables, seed)
}

fn number(argument: Option<String>) -> Result<u64, String> {
    argument.and_then(|text| text.parse().ok()).ok_or_else(|| "a number is missing".to_string())
}

fn check_file(file: &str) -> Result<(), String> {
    let text = std::fs::read_to_string(file).map_err(|error| format!("{file}: {error}"))?;
    let held = vectors::check(&text).map_err(|difference| format!("{file}: {difference}"))?;
    println!(
        "{file}: {} readings, {} trees, {} replays, {} judges hold",
        held.readings, held.trees, held.replays, held.judges
    );
    Ok(())
}

#[derive(Default)]
struct Counts {
    tables: u64,
    nodes: u64,
    orders: u64,
    runs: u64,
    judged: u64,
    judged_yes: u64,
}

fn check_random(tables: u64, seed: u64) -> Result<(), String> {
    for (name, table) in [
        ("small", tables::small as fn(&mut Random) -> Draft),
        ("of any size", tables::any_size_mostly_fixed),
    ] {
        let mut counts = Counts::default();
        for case in 0..tables {
            let mut random = Random::for_case(seed, case);
            let draft = table(&mut random);
            check_tree(&draft, &mut counts)
                .and_then(|set| check_judge(&set, &mut random, &mut counts))
                .map_err(|what| format!("case {case} of seed {seed}, {what}: {draft:?}"))?;
        }
        println!(
            "walk equals brute: {} tables {name}, {} runs, {} nodes, {} orders",
            counts.tables, counts.runs, counts.nodes, counts.orders
        );
        println!("judge equals kernel: {} logs, {} of a run", counts.judged, counts.judged_yes);
    }
    Ok(())
}

/// The walk through its service, in exactly enough room and in one node too little.
fn check_tree(draft: &Draft, counts: &mut Counts) -> Result<JobSet, String> {
    let bytes = draft.bytes();
    let set = services::job_set(&bytes).map_err(|refusal| format!("refused {refusal:?}"))?;
    let (nodes, size) = brute::tree(&set);
    let wanted: Vec<u32> = nodes.iter().flat_map(|node| node.words()).collect();
    let mut words = vec![UNTOUCHED; wanted.len()];
    if services::tree(&bytes, &mut words) != Ok(size) || words != wanted {
        return Err("walk differs from brute".to_string());
    }
    let mut words = vec![UNTOUCHED; wanted.len() - NODE_WORDS + 7];
    let refused = services::tree(&bytes, &mut words) == Err(Refusal::RoomTooSmall);
    if !refused || words.iter().any(|&word| word != UNTOUCHED) {
        return Err("too little room is not refused untouched".to_string());
    }
    counts.tables += 1;
    counts.nodes += u64::from(size.nodes);
    counts.orders += u64::from(size.orders);
    counts.runs += brute::choices(&set).unwrap_or(0);
    Ok(set)
}

/// Logs of runs, damaged ones and those of other sets, judged by the follower and by running the
/// times they suggest.
fn check_judge(set: &JobSet, random: &mut Random, counts: &mut Counts) -> Result<(), String> {
    for turn in 0..6 {
        let source = if turn < 4 { set.clone() } else { damage::neighbour(random, set) };
        let times = tables::times(random, &source);
        let mut log = log_words(&kernel::run(&source, &times).switches);
        if (1..4).contains(&turn) {
            damage::log(random, &mut log);
        }
        let judged = judge::times_of(set, &log);
        let wanted = if turn == 0 { Some(times) } else { times_by_running(set, &log) };
        if judged != wanted {
            return Err(format!("judge gives {judged:?} instead of {wanted:?} for {log:?}"));
        }
        counts.judged += 1;
        counts.judged_yes += u64::from(judged.is_some());
    }
    Ok(())
}

/// Adds up what each segment has had according to the log, and asks the kernel for the log of that.
fn times_by_running(set: &JobSet, log: &[u32]) -> Option<Vec<u32>> {
    let mut times = vec![0u32; set.segments.len()];
    let switches: Vec<&[u32]> = log.chunks(4).collect();
    for pair in switches.windows(2) {
        let job = set.jobs.get(*pair[0].get(2)? as usize)?;
        let segment = job.first.checked_add(*pair[0].get(3)? as usize)?;
        let start = job.release.max(pair[0][1]);
        let had = pair[1].get(1)?.checked_sub(start)?;
        let time = times.get_mut(segment)?;
        *time = time.checked_add(had)?;
    }
    let possible = times
        .iter()
        .zip(&set.segments)
        .all(|(time, segment)| (segment.shortest..=segment.longest).contains(time));
    (possible && log_words(&kernel::run(set, &times).switches) == log).then_some(times)
}
