//! From a log to the times of its run, or no.
//!
//! The log is followed switch by switch; the ticks between two switches are never stepped through.

use crate::dispatch::{next_above, Ranking, Standing};
use crate::jobs::JobSet;
use crate::switch::{Kind, NONE, SWITCH_WORDS};

/// The one list of times whose run has this log; none if no run has it.
pub fn times_of(set: &JobSet, log: &[u32]) -> Option<Vec<u32>> {
    if log.len() % SWITCH_WORDS != 0 {
        return None;
    }
    let mut switches = log.chunks_exact(SWITCH_WORDS);
    let mut follower = Follower::new(set);
    follower.first(switches.next()?)?;
    while let Some(running) = follower.running {
        follower.leave(running, switches.next()?)?;
    }
    // Nothing may come after the last END.
    switches.next().is_none().then_some(follower.times)
}

/// The job on the processor and the tick since which it has run without a break.
#[derive(Clone, Copy)]
struct Running {
    job: usize,
    /// The present segment, counted within the set.
    present: usize,
    since: u32,
}

struct Follower<'a> {
    set: &'a JobSet,
    ranking: Ranking,
    standing: Standing,
    released: usize,
    running: Option<Running>,
    /// The ticks each segment has had so far.
    times: Vec<u32>,
}

impl<'a> Follower<'a> {
    fn new(set: &'a JobSet) -> Follower<'a> {
        let ranking = Ranking::new(set);
        Follower {
            set,
            standing: ranking.fresh(),
            ranking,
            released: 0,
            running: None,
            times: vec![0; set.segments.len()],
        }
    }

    fn first(&mut self, switch: &[u32]) -> Option<()> {
        let tick = self.set.jobs[0].release;
        if switch[..2] != [Kind::First.word(), tick] {
            return None;
        }
        self.enter(tick, switch)
    }

    /// The running job leaves the processor as the switch says, and what the switch names enters.
    fn leave(&mut self, running: Running, switch: &[u32]) -> Option<()> {
        let Running { job, present, since } = running;
        let (kind, tick) = (switch[0], switch[1]);
        let segment = self.set.segments[present];
        let cut = next_above(self.set, self.released, segment.priority, tick.saturating_add(1));
        self.times[present] += tick.checked_sub(since).filter(|&had| had > 0)?;
        let last = present + 1 == self.set.jobs[job].end;
        let ending = if last { Kind::End } else { Kind::Step };
        if kind == ending.word() {
            // On the tick of a release the end comes first; an earlier release would have cut.
            let in_time = cut.map_or(true, |release| release == tick);
            let bounds = segment.shortest..=segment.longest;
            if !in_time || !bounds.contains(&self.times[present]) {
                return None;
            }
            self.standing = if last {
                self.ranking.finish(self.standing, present)
            } else {
                self.ranking.step(self.standing, present)
            };
        } else if kind != Kind::Cut.word() || cut != Some(tick) {
            return None;
        }
        self.enter(tick, switch)
    }

    /// Checks that the switch names what runs next, after idling if need be.
    fn enter(&mut self, tick: u32, switch: &[u32]) -> Option<()> {
        self.released = self.set.released_by(tick, self.released);
        let mut since = tick;
        let mut chosen = self.ranking.choose(self.standing, self.released);
        if chosen.is_none() && self.released < self.set.jobs.len() {
            since = self.set.jobs[self.released].release;
            self.released = self.set.released_by(since, self.released);
            chosen = self.ranking.choose(self.standing, self.released);
        }
        let mut named = [NONE, NONE];
        self.running = chosen.map(|stand| {
            let (job, present) = (usize::from(stand.job), usize::from(stand.segment));
            named = [job as u32, (present - self.set.jobs[job].first) as u32];
            self.standing = self.ranking.begin(self.standing, stand);
            Running { job, present, since }
        });
        (switch[2..] == named).then_some(())
    }
}
