//! The tree without enumerating times.
//!
//! The runs that share a beginning differ only in the tick at which the named segment starts and
//! in the remaining times of the jobs, and each of these takes every value of its span
//! independently of the others. So a span of start ticks and one span per job are all the state
//! there is.

use crate::dispatch::{next_above, Ranking, Stand, Standing};
use crate::jobs::JobSet;
use crate::switch::{Kind, NONE};
use crate::table::Table;
use crate::tree::{Node, Span};

/// The tree has more nodes than there is room for.
#[derive(Clone, Copy, Debug, PartialEq, Eq)]
pub struct Full;

/// Where the nodes go.
pub trait Sink {
    /// Takes the next node and gives its number.
    fn put(&mut self, node: Node) -> Result<u32, Full>;
}

/// Puts every node of the tree into the sink, in order; gives the number of orders.
pub fn walk(set: &JobSet, sink: &mut impl Sink) -> Result<u32, Full> {
    let mut walk = Walk {
        set,
        ranking: Ranking::new(set),
        remaining: [Span::at(0); Table::MOST_JOBS],
        orders: 0,
        sink,
    };
    for (job, record) in set.jobs.iter().enumerate() {
        walk.remaining[job] = set.segments[record.first].whole_time();
    }
    let standing = walk.ranking.fresh();
    walk.change_at(NONE, Kind::First, set.jobs[0].release, State { standing, released: 0 })?;
    Ok(walk.orders)
}

struct Walk<'a, S> {
    set: &'a JobSet,
    ranking: Ranking,
    /// The time each job's present segment still needs.
    remaining: [Span; Table::MOST_JOBS],
    orders: u32,
    sink: &'a mut S,
}

/// What changes from switch to switch and is cheap to hand on.
#[derive(Clone, Copy)]
struct State {
    standing: Standing,
    /// How many jobs are known to be released.
    released: usize,
}

impl<S: Sink> Walk<'_, S> {
    /// A switch at one fixed tick, with no idling: the FIRST and every CUT.
    fn change_at(
        &mut self,
        parent: u32,
        kind: Kind,
        tick: u32,
        mut state: State,
    ) -> Result<(), Full> {
        state.released = self.set.released_by(tick, state.released);
        let chosen = self.ranking.choose(state.standing, state.released);
        let stand = *chosen.expect("a job is released at this tick");
        self.enter(parent, kind, Span::at(tick), Span::at(tick), stand, state)
    }

    /// Puts the node of a switch, and goes down to everything that may happen to the segment it
    /// names: it ends, or a release cuts it.
    fn enter(
        &mut self,
        parent: u32,
        kind: Kind,
        leaving: Span,
        start: Span,
        stand: Stand,
        mut state: State,
    ) -> Result<(), Full> {
        let (job, present) = (usize::from(stand.job), usize::from(stand.segment));
        let segment = (present - self.set.jobs[job].first) as u32;
        let node = Node { parent, kind, job: job as u32, segment, leaving, start };
        let number = self.sink.put(node)?;
        state.standing = self.ranking.begin(state.standing, &stand);

        let kept = self.remaining[job];
        let end = start.plus(kept);
        let priority = self.set.segments[present].priority;
        let cut = next_above(self.set, state.released, priority, end.latest);
        // On the tick of the release itself the segment may still end.
        let ending = Span { latest: cut.unwrap_or(end.latest), ..end };
        if ending.earliest <= ending.latest {
            self.end_segment(number, job, present, ending, state)?;
        }
        if let Some(tick) = cut {
            self.remaining[job] = end.left_after(tick);
            self.change_at(number, Kind::Cut, tick, state)?;
        }
        self.remaining[job] = kept;
        Ok(())
    }

    /// The segment ends and its job moves on.
    fn end_segment(
        &mut self,
        node: u32,
        job: usize,
        present: usize,
        leaving: Span,
        mut state: State,
    ) -> Result<(), Full> {
        if present + 1 == self.set.jobs[job].end {
            state.standing = self.ranking.finish(state.standing, present);
            self.follow(node, Kind::End, leaving, state)
        } else {
            state.standing = self.ranking.step(state.standing, present);
            self.remaining[job] = self.set.segments[present + 1].whole_time();
            self.follow(node, Kind::Step, leaving, state)
        }
    }

    /// Splits the leaving ticks by what runs next. A later release can only bring in a more urgent
    /// job, so each job that may follow has one unbroken piece of them.
    fn follow(
        &mut self,
        node: u32,
        kind: Kind,
        leaving: Span,
        mut state: State,
    ) -> Result<(), Full> {
        let mut from = leaving.earliest;
        loop {
            let mut ready_at = from;
            state.released = self.set.released_by(from, state.released);
            let mut chosen = self.ranking.choose(state.standing, state.released);
            if chosen.is_none() && state.released < self.set.jobs.len() {
                // The processor idles until the next release.
                ready_at = self.set.jobs[state.released].release;
                state.released = self.set.released_by(ready_at, state.released);
                chosen = self.ranking.choose(state.standing, state.released);
            }
            let stand = match chosen {
                Some(&stand) => stand,
                None => return self.leaf(node, kind, Span { earliest: from, ..leaving }),
            };
            let rival = next_above(self.set, state.released, stand.priority, leaving.latest + 1);
            let latest = rival.map_or(leaving.latest, |release| release - 1);
            let piece = Span { earliest: from, latest };
            self.enter(node, kind, piece, piece.not_before(ready_at), stand, state)?;
            match rival {
                Some(release) => from = release,
                None => return Ok(()),
            }
        }
    }

    fn leaf(&mut self, parent: u32, kind: Kind, leaving: Span) -> Result<(), Full> {
        self.orders += 1;
        let node = Node { parent, kind, job: NONE, segment: NONE, leaving, start: leaving };
        self.sink.put(node).map(|_| ())
    }
}
