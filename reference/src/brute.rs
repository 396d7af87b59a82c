//! The tree by its definition: every choice of times is run and the logs are laid over one another.
//!
//! Only for small tables. Nothing here knows about intervals; they come out as the least and the
//! greatest tick that some run had.

use crate::jobs::JobSet;
use crate::kernel::{self, Run};
use crate::switch::{Kind, Switch, NONE};
use crate::tree::{Node, Span, TreeSize};

/// How many choices of times there are; none if the number does not fit.
pub fn choices(set: &JobSet) -> Option<u64> {
    set.segments.iter().try_fold(1u64, |product, segment| {
        product.checked_mul(u64::from(segment.longest - segment.shortest) + 1)
    })
}

/// The whole tree, nodes in the order of the paper.
pub fn tree(set: &JobSet) -> (Vec<Node>, TreeSize) {
    let mut roots = Vec::new();
    let mut times: Vec<u32> = set.segments.iter().map(|segment| segment.shortest).collect();
    loop {
        lay_over(&mut roots, &kernel::run(set, &times));
        if !next_choice(set, &mut times) {
            break;
        }
    }
    let mut nodes = Vec::new();
    let orders = number(&mut nodes, NONE, roots);
    let size = TreeSize { nodes: nodes.len() as u32, orders };
    (nodes, size)
}

/// Counts the times up like the digits of a number; false after the last choice.
fn next_choice(set: &JobSet, times: &mut [u32]) -> bool {
    for (time, segment) in times.iter_mut().zip(&set.segments) {
        if *time < segment.longest {
            *time += 1;
            return true;
        }
        *time = segment.shortest;
    }
    false
}

/// A beginning of some orders, known by its last switch without the tick.
struct Beginning {
    switch: Switch,
    leaving: Span,
    start: Span,
    longer: Vec<Beginning>,
}

fn lay_over(roots: &mut Vec<Beginning>, run: &Run) {
    let mut level = roots;
    for (switch, &start) in run.switches.iter().zip(&run.starts) {
        let same = |known: &Beginning| {
            let known = &known.switch;
            (known.kind, known.job, known.segment) == (switch.kind, switch.job, switch.segment)
        };
        let place = level.iter().position(same).unwrap_or_else(|| {
            level.push(Beginning {
                switch: *switch,
                leaving: Span::at(switch.tick),
                start: Span::at(start),
                longer: Vec::new(),
            });
            level.len() - 1
        });
        level[place].leaving.take_in(switch.tick);
        level[place].start.take_in(start);
        level = &mut level[place].longer;
    }
}

/// Numbers down before across and gives the number of leaves.
fn number(nodes: &mut Vec<Node>, parent: u32, mut siblings: Vec<Beginning>) -> u32 {
    siblings.sort_by_key(|one| (one.switch.kind == Kind::Cut, one.leaving.earliest));
    let mut leaves = 0;
    for one in siblings {
        let own_number = nodes.len() as u32;
        nodes.push(Node {
            parent,
            kind: one.switch.kind,
            job: one.switch.job,
            segment: one.switch.segment,
            leaving: one.leaving,
            start: one.start,
        });
        let is_leaf = one.longer.is_empty();
        leaves += u32::from(is_leaf) + number(nodes, own_number, one.longer);
    }
    leaves
}
