//! The sample tables of the paper, and the limits of the tree.

use vlodenka_reference::draft::Draft;
use vlodenka_reference::refusal::Refusal;
use vlodenka_reference::tree::{TreeSize, NODE_WORDS};
use vlodenka_reference::{limit, services};

const NONE: u32 = u32::MAX;
const PATTERN: u32 = 0x1234_5678;

fn case_4(longest: u32, frame: u32) -> Vec<u8> {
    Draft::new(frame).job(0, 1, &[(2, longest, 0)]).job(3, 2, &[(1, 1, 0)]).bytes()
}

fn tree(table: &[u8], len: usize) -> (Result<(u32, u32), Refusal>, Vec<u32>) {
    let mut words = vec![PATTERN; len];
    let size = services::tree(table, &mut words);
    (size.map(|TreeSize { nodes, orders }| (nodes, orders)), words)
}

fn size(table: &[u8]) -> Result<(u32, u32), Refusal> {
    tree(table, 2_048 * NODE_WORDS).0
}

#[test]
fn cases_1_to_3_small_tables() {
    assert_eq!(size(&[]), Err(Refusal::Unreadable));
    assert_eq!(size(&Draft::new(10).bytes()), Err(Refusal::WrongAmount));
    assert_eq!(size(&Draft::new(10).job(0, 1, &[(2, 2, 0)]).bytes()), Ok((2, 1)));
}

#[test]
fn cases_4_and_9_the_listing_and_its_room() {
    let listing = [
        [NONE, 0, 0, 0, 0, 0, 0, 0],
        [0, 1, 1, 0, 2, 3, 3, 3],
        [1, 1, NONE, NONE, 4, 4, 4, 4],
        [0, 3, 1, 0, 3, 3, 3, 3],
        [3, 1, 0, 0, 4, 4, 4, 4],
        [4, 1, NONE, NONE, 5, 5, 5, 5],
    ];
    let (answer, words) = tree(&case_4(4, 10), 50);
    assert_eq!(answer, Ok((6, 2)));
    assert_eq!(words[..48], listing.concat());
    assert_eq!(words[48..], [PATTERN; 2]);
    assert_eq!(tree(&case_4(4, 10), 48).0, Ok((6, 2)));
    assert_eq!(tree(&case_4(4, 10), 47), (Err(Refusal::RoomTooSmall), vec![PATTERN; 47]));
}

#[test]
fn cases_5_to_8_ends_frames_and_ceilings() {
    assert_eq!(size(&case_4(3, 10)), Ok((3, 1)));
    assert_eq!(size(&case_4(4, 5)), Ok((6, 2)));
    assert_eq!(size(&case_4(4, 4)), Err(Refusal::FrameTooShort));
    let case_7 =
        Draft::new(10).job(0, 1, &[(1, 1, 0)]).job(0, 2, &[(2, 4, 0)]).job(3, 3, &[(1, 1, 0)]);
    assert_eq!(size(&case_7.bytes()), Ok((11, 3)));
    let case_8 = Draft::new(10)
        .job(0, 1, &[(1, 1, 0), (3, 3, 1), (1, 1, 0)])
        .job(2, 2, &[(1, 1, 1)])
        .job(3, 3, &[(1, 1, 0)]);
    let (answer, words) = tree(&case_8.bytes(), 48);
    assert_eq!(answer, Ok((6, 1)));
    let running: Vec<u32> = words.chunks(NODE_WORDS).map(|node| node[2]).collect();
    assert_eq!(running, [0, 0, 2, 1, 0, NONE]);
}

#[test]
fn cases_10_and_11_replay_and_judge() {
    let table = case_4(4, 10);
    let mut log = [PATTERN; 20];
    assert_eq!(services::replay(&table, &[2, 1], &mut log), Ok(3));
    assert_eq!(log[..12], [0, 0, 0, 0, 1, 2, 1, 0, 1, 4, NONE, NONE]);
    assert_eq!(log[12..], [PATTERN; 8]);
    let mut times = [PATTERN; 3];
    assert_eq!(services::judge(&table, &log[..12], &mut times), Ok(()));
    assert_eq!(times, [2, 1, PATTERN]);
    log[5] = 1;
    let mut times = [PATTERN; 3];
    assert_eq!(services::judge(&table, &log[..12], &mut times), Err(Refusal::NotARun));
    assert_eq!(services::judge(&table, &log[..12], &mut times[..1]), Err(Refusal::RoomTooSmall));
    assert_eq!(times, [PATTERN; 3]);
    assert_eq!(services::replay(&table, &[4, 1], &mut log), Ok(4));
    assert_eq!(log[..8], [0, 0, 0, 0, 3, 3, 1, 0]);
    assert_eq!(log[8..16], [1, 4, 0, 0, 1, 5, NONE, NONE]);
}

#[test]
fn cases_12_and_13_the_tables_of_source_001() {
    let table_7_2 = Draft::new(400)
        .job(0, 4, &[(9, 39, 0)])
        .job(40, 3, &[(39, 121, 0)])
        .job(40, 2, &[(49, 59, 0)])
        .job(100, 4, &[(9, 39, 0)])
        .job(200, 4, &[(9, 39, 0)])
        .job(300, 4, &[(9, 39, 0)])
        .job(350, 1, &[(9, 20, 0)]);
    assert_eq!(size(&table_7_2.bytes()), Ok((32, 5)));
    let mut table_7_3 = Draft::new(400);
    for place in 0..10 {
        table_7_3 = table_7_3.job(place * 40, 3, &[(9, 11, 0)]);
    }
    assert_eq!(size(&table_7_3.bytes()), Ok((11, 1)));
}

#[test]
fn limits_of_the_tree() {
    let most = 8_000_000;
    assert_eq!(
        tree(&limit::table(false).bytes(), most + 8).0.map(|(nodes, _)| nodes),
        Ok(1_000_000)
    );
    assert_eq!(tree(&limit::table(false).bytes(), most - 1).0, Err(Refusal::RoomTooSmall));
    assert_eq!(tree(&limit::table(true).bytes(), most + 80).0, Err(Refusal::RoomTooSmall));
    let (answer, words) = tree(&limit::deepest().bytes(), 96 * NODE_WORDS);
    assert_eq!(answer, Ok((96, 1)));
    let parents: Vec<u32> = words.chunks(NODE_WORDS).skip(1).map(|node| node[0]).collect();
    assert_eq!(parents, (0..95).collect::<Vec<u32>>());
}

#[test]
fn parts_are_of_the_callers_own_table() {
    let table = case_4(4, 10);
    assert_eq!(services::part(&table, 1).as_ptr(), table[26..].as_ptr());
    assert_eq!(services::part(&table, 1), &table[26..46]);
    assert_eq!(services::part(&table, 2).as_ptr(), table[46..].as_ptr());
    assert!(services::part(&table, 2).is_empty());
    assert!(services::part(&table[..45], 0).is_empty());
}
