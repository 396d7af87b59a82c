//! What becomes of the nodes of a walk: counted, kept aside, or written into lent words.

use crate::jobs::JobSet;
use crate::tree::{Node, TreeSize, NODE_WORDS};
use crate::walk::{walk, Full, Sink};

/// A tree up to this size is kept aside while it is counted; a larger one is walked a second time,
/// because fresh memory for it would cost more than the walk.
const KEPT_NODES: usize = 1 << 15;

/// Counts nodes and orders, and gives up as soon as there are more nodes than room.
pub fn count(set: &JobSet, room: usize) -> Result<TreeSize, Full> {
    let mut counter = Counter { count: 0, room };
    let orders = walk(set, &mut counter)?;
    Ok(TreeSize { nodes: counter.count as u32, orders })
}

/// Writes the whole tree from the start of `words`, or nothing if it has more nodes than `room`.
pub fn write(set: &JobSet, words: &mut [u32], room: usize) -> Result<TreeSize, Full> {
    let mut keeper = Keeper { kept: Vec::new(), counter: Counter { count: 0, room } };
    let orders = walk(set, &mut keeper)?;
    let nodes = keeper.counter.count;
    let lent = &mut words[..nodes * NODE_WORDS];
    if nodes <= KEPT_NODES {
        lent.copy_from_slice(&keeper.kept);
    } else {
        walk(set, &mut Writer { count: 0, free: lent.chunks_exact_mut(NODE_WORDS) })?;
    }
    Ok(TreeSize { nodes: nodes as u32, orders })
}

struct Counter {
    count: usize,
    room: usize,
}

impl Sink for Counter {
    #[inline]
    fn put(&mut self, _: Node) -> Result<u32, Full> {
        if self.count == self.room {
            return Err(Full);
        }
        self.count += 1;
        Ok(self.count as u32 - 1)
    }
}

/// Counts, and keeps the first nodes in case there are no more.
struct Keeper {
    kept: Vec<u32>,
    counter: Counter,
}

impl Sink for Keeper {
    #[inline]
    fn put(&mut self, node: Node) -> Result<u32, Full> {
        if self.counter.count < KEPT_NODES {
            self.kept.extend_from_slice(&node.words());
        }
        self.counter.put(node)
    }
}

struct Writer<'a> {
    count: u32,
    free: std::slice::ChunksExactMut<'a, u32>,
}

impl Sink for Writer<'_> {
    #[inline]
    fn put(&mut self, node: Node) -> Result<u32, Full> {
        self.free.next().ok_or(Full)?.copy_from_slice(&node.words());
        self.count += 1;
        Ok(self.count - 1)
    }
}
