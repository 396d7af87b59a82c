//! The tables that are timed. Those with segments spelt out were found by a search among random
//! ones.

use vlodenka_reference::draft::Draft;

type Segments = &'static [(u32, u32, u16)];

fn table(jobs: &[(u32, u8, Segments)]) -> Draft {
    let mut draft = Draft::new(0);
    for &(release, base, segments) in jobs {
        draft = draft.job(release, base, segments);
    }
    draft.frame = draft.latest_end();
    draft
}

/// 998 nodes, 81 orders.
pub fn thousand() -> Draft {
    table(&[
        (0, 8, &[(1, 3, 1)]),
        (2, 20, &[(2, 2, 2)]),
        (11, 8, &[(2, 4, 2)]),
        (12, 17, &[(2, 3, 0)]),
        (14, 7, &[(5, 7, 2)]),
        (18, 9, &[(2, 4, 0)]),
        (24, 6, &[(3, 3, 0)]),
        (27, 16, &[(2, 2, 4), (2, 2, 0)]),
        (29, 10, &[(2, 3, 1), (2, 3, 4), (3, 3, 0)]),
        (30, 1, &[(4, 6, 4), (2, 5, 0), (2, 6, 0)]),
        (39, 2, &[(5, 9, 2), (3, 3, 0), (1, 2, 1)]),
        (39, 13, &[(4, 8, 0)]),
        (40, 10, &[(2, 6, 0), (5, 8, 0)]),
        (45, 20, &[(5, 7, 1)]),
    ])
}

/// 30,028 nodes, 2,033 orders.
pub fn thirty_thousand() -> Draft {
    table(&[
        (0, 3, &[(5, 5, 0)]),
        (4, 20, &[(2, 4, 0)]),
        (16, 6, &[(1, 3, 0), (3, 7, 0)]),
        (19, 18, &[(5, 9, 1), (4, 8, 4)]),
        (26, 3, &[(1, 3, 1), (3, 7, 0), (6, 8, 0)]),
        (38, 12, &[(6, 9, 2)]),
        (43, 11, &[(1, 2, 4), (2, 2, 1), (2, 5, 0)]),
        (55, 1, &[(6, 9, 0)]),
        (62, 7, &[(3, 3, 1), (1, 4, 0), (6, 7, 2)]),
        (65, 16, &[(5, 9, 0)]),
        (72, 16, &[(3, 3, 4)]),
        (80, 18, &[(6, 7, 4), (1, 1, 0)]),
        (82, 6, &[(2, 4, 0), (2, 3, 1)]),
        (91, 11, &[(4, 5, 4)]),
        (91, 5, &[(3, 5, 0), (3, 4, 1), (4, 7, 0)]),
        (102, 10, &[(3, 3, 4), (5, 6, 1)]),
        (104, 2, &[(5, 8, 0)]),
        (106, 5, &[(1, 3, 4)]),
        (110, 13, &[(6, 6, 1)]),
        (112, 15, &[(5, 6, 2), (3, 3, 0)]),
        (122, 2, &[(5, 8, 0)]),
    ])
}

/// 997,635 nodes, 65,533 orders.
pub fn million() -> Draft {
    table(&[
        (0, 17, &[(2, 4, 0)]),
        (5, 14, &[(5, 9, 0), (6, 10, 0), (5, 6, 1)]),
        (13, 16, &[(6, 10, 0), (2, 3, 0)]),
        (20, 7, &[(6, 8, 4)]),
        (22, 18, &[(2, 4, 1), (5, 5, 1)]),
        (30, 6, &[(3, 6, 2), (1, 1, 4)]),
        (39, 19, &[(5, 6, 0)]),
        (43, 9, &[(1, 4, 4), (3, 3, 2)]),
        (52, 20, &[(2, 6, 0), (5, 5, 0)]),
        (60, 4, &[(4, 4, 0)]),
        (61, 8, &[(5, 9, 0)]),
        (65, 13, &[(1, 5, 4), (2, 4, 2), (3, 6, 0)]),
        (66, 14, &[(4, 6, 2)]),
        (72, 2, &[(4, 4, 0), (5, 7, 0)]),
        (79, 20, &[(4, 6, 2)]),
        (80, 9, &[(2, 3, 2)]),
        (87, 13, &[(4, 8, 2), (4, 4, 0)]),
        (92, 15, &[(1, 2, 0), (2, 5, 0), (3, 4, 0)]),
        (101, 5, &[(1, 4, 4), (6, 6, 1)]),
        (106, 20, &[(5, 9, 0)]),
        (110, 9, &[(5, 7, 4), (6, 9, 4)]),
        (116, 12, &[(4, 5, 0), (4, 7, 0)]),
    ])
}

/// 32 jobs of 2 segments with wide times and mixed bases: more than a billion nodes.
pub fn far_beyond() -> Draft {
    let mut draft = Draft::new(0);
    for place in 0..32 {
        let base = (place * 7 % 12 + 1) as u8;
        let held = if place % 5 == 0 { 1 } else { 0 };
        draft = draft.job(place * 6, base, &[(1, 6, 0), (1, 5, held)]);
    }
    draft.frame = draft.latest_end();
    draft
}

/// 32 jobs that together fill a frame of 1,000,000 ticks, most of them ready for most of it.
pub fn longest_frame() -> Draft {
    let mut draft = Draft::new(1_000_000);
    for place in 0..32 {
        let base = (place * 5 % 32 + 1) as u8;
        let held = if place % 4 == 0 { 1 } else { 0 };
        draft = draft.job(place * 9_000, base, &[(1, 15_000, 0), (1, 16_250, held)]);
    }
    draft
}
