//! Tables at the limits of the tree: as many nodes as are ever given, one more, and the deepest
//! path.

use crate::draft::Draft;

/// A segment of one tick for certain.
const TICK: (u32, u32, u16) = (1, 1, 0);

type Jobs = &'static [(u32, u8, (u32, u32, u16))];

/// Three groups of jobs, each with all its work done before the next is released, so that the tree
/// of the next hangs below every leaf of the one before: 122 + 32 * (309 - 1 + 62 * (500 - 1))
/// nodes make 999,994. Found by search among random groups; each has its own locks, as a ceiling
/// knows no groups.
const GROUPS: [(u32, Jobs); 3] = [
    (
        34,
        &[
            (0, 3, (1, 7, 0)),
            (1, 1, (1, 5, 0)),
            (3, 6, (2, 8, 0)),
            (6, 8, (1, 6, 0)),
            (9, 2, (3, 8, 0)),
        ],
    ),
    (
        40,
        &[
            (0, 1, (2, 7, 0)),
            (4, 7, (1, 7, 0)),
            (8, 5, (2, 6, 0)),
            (9, 3, (2, 3, 2)),
            (10, 7, (1, 7, 0)),
            (12, 1, (1, 3, 0)),
            (15, 9, (3, 7, 2)),
        ],
    ),
    (
        32,
        &[
            (0, 4, (2, 5, 0)),
            (2, 1, (1, 4, 0)),
            (2, 5, (2, 6, 0)),
            (5, 9, (1, 4, 0)),
            (9, 3, (1, 4, 0)),
            (10, 1, (1, 7, 4)),
            (12, 7, (2, 2, 0)),
        ],
    ),
];

/// A table whose tree has exactly 1,000,000 nodes, or one more.
pub fn table(one_more: bool) -> Draft {
    // Each segment of a first job that branches nowhere adds one node.
    let chain = if one_more { 7 } else { 6 };
    let mut draft = Draft::new(0).job(0, 1, &vec![TICK; chain]);
    let mut begin = chain as u32;
    for (length, jobs) in GROUPS {
        for &(release, base, segment) in jobs {
            draft = draft.job(begin + release, base, &[segment]);
        }
        begin += length;
    }
    draft.frame = begin;
    draft
}

/// 32 jobs of 2 segments; each job but the last is cut by the next after one tick. The only order
/// has 96 switches, the most there can be.
pub fn deepest() -> Draft {
    let mut draft = Draft::new(0);
    for place in 0..32 {
        draft = draft.job(place, place as u8 + 1, &[(2, 3, 0), (1, 2, 0)]);
    }
    draft.frame = draft.latest_end();
    draft
}
