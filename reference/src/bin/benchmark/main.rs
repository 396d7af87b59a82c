//! The archive and the reference side by side on the same inputs.
//!
//! The ratio is always what the archive takes by what the reference takes: below 1 it is the
//! faster, or the one with less stack.

mod stack;
mod tables;
mod timing;

use timing::Pair;
use vlodenka_reference::draft::Draft;
use vlodenka_reference::refusal::Refusal;
use vlodenka_reference::switch::SWITCH_WORDS;
use vlodenka_reference::tree::{MOST_NODES, NODE_WORDS};
use vlodenka_reference::{archive, limit, services};

fn main() {
    println!("{:<34}{:>14}{:>14}{:>8}  unit", "", "archive", "reference", "ratio");
    tree(&tables::thousand());
    tree(&tables::thirty_thousand());
    tree(&tables::million());
    too_large();
    replay();
    judge();
    deepest_stack();
    println!("ratio: what the archive takes by what the reference takes, smaller is better");
}

fn line(what: &str, archive: f64, reference: f64, ratio: f64, unit: &str) {
    println!("{what:<34}{archive:>14.1}{reference:>14.1}{ratio:>8.2}  {unit}");
}

fn tree(draft: &Draft) {
    let table = draft.bytes();
    let mut words = vec![0; MOST_NODES * NODE_WORDS];
    let size = services::tree(&table, &mut words).expect("a tree that fits");
    let len = size.nodes as usize * NODE_WORDS;
    let mut others = vec![0; MOST_NODES * NODE_WORDS];
    let answer = archive::tree(&table, &mut others);
    assert_eq!((answer.refusal, answer.counts), (0, [size.nodes, size.orders]));
    assert!(words[..len] == others[..len], "the trees differ");
    let pair = Pair::measure(
        || assert_eq!(archive::tree(&table, &mut others).refusal, 0),
        || assert!(services::tree(&table, &mut words).is_ok()),
    );
    let each = 1e9 / f64::from(size.nodes);
    let what = format!("tree, {} nodes", size.nodes);
    line(&what, pair.archive * each, pair.reference * each, pair.ratio(), "ns per node");
}

/// A tree far beyond any room: how long until it is refused.
fn too_large() {
    let table = tables::far_beyond().bytes();
    for room in [2_048, MOST_NODES] {
        let mut words = vec![0; room * NODE_WORDS];
        let mut others = words.clone();
        let pair = Pair::measure(
            || assert_eq!(archive::tree(&table, &mut others).refusal, 7),
            || assert_eq!(services::tree(&table, &mut words), Err(Refusal::RoomTooSmall)),
        );
        let each = 1e9 / room as f64;
        let what = format!("tree refused 7, room {room}");
        line(
            &what,
            pair.archive * each,
            pair.reference * each,
            pair.ratio(),
            "ns per node of room",
        );
    }
}

fn replay() {
    let draft = tables::longest_frame();
    let table = draft.bytes();
    let times = longest_times(&draft);
    let mut log = [0; 96 * SWITCH_WORDS];
    let switches = services::replay(&table, &times, &mut log).expect("a run");
    let mut other = [0; 96 * SWITCH_WORDS];
    let answer = archive::replay(&table, &times, &mut other);
    assert_eq!((answer.refusal, answer.counts[0]), (0, switches));
    assert!(log == other, "the logs differ");
    let pair = Pair::measure(
        || assert_eq!(archive::replay(&table, &times, &mut other).refusal, 0),
        || assert!(services::replay(&table, &times, &mut log).is_ok()),
    );
    let millions = |seconds: f64| f64::from(draft.frame) / seconds / 1e6;
    let (archive, reference) = (millions(pair.archive), millions(pair.reference));
    line("replay, frame 1000000, 32 jobs", archive, reference, pair.ratio(), "million ticks per s");
}

fn judge() {
    let draft = limit::deepest();
    let table = draft.bytes();
    let mut log = [0; 96 * SWITCH_WORDS];
    assert_eq!(services::replay(&table, &longest_times(&draft), &mut log), Ok(96));
    let mut times = [0; 64];
    assert_eq!(services::judge(&table, &log, &mut times), Ok(()));
    let mut others = [0; 64];
    assert_eq!(archive::judge(&table, &log, &mut others).refusal, 0);
    assert_eq!(times, others, "the times differ");
    let pair = Pair::measure(
        || assert_eq!(archive::judge(&table, &log, &mut others).refusal, 0),
        || assert_eq!(services::judge(&table, &log, &mut times), Ok(())),
    );
    let (archive, reference) = (pair.archive * 1e9, pair.reference * 1e9);
    line("judge, 96 switches", archive, reference, pair.ratio(), "ns per log");
}

fn deepest_stack() {
    let table = limit::deepest().bytes();
    let mut words = [0; 96 * NODE_WORDS];
    let archive = stack::depth_of(|| {
        assert_eq!(archive::tree(&table, &mut words).counts, [96, 1]);
    });
    let reference = stack::depth_of(|| {
        assert!(services::tree(&table, &mut words).is_ok());
    });
    let (archive, reference) = (archive as f64, reference as f64);
    line("peak stack, tree of depth 96", archive, reference, archive / reference, "bytes");
}

fn longest_times(draft: &Draft) -> Vec<u32> {
    draft.jobs.iter().flat_map(|job| job.segments.iter().map(|s| s.longest)).collect()
}
