//! The kernel, tick by tick, exactly as the paper orders the four points of a tick.

use crate::jobs::JobSet;
use crate::switch::{Kind, Switch, NONE};

/// What one run did: its log, and the tick at which each named segment started or resumed.
#[derive(Clone, Debug, Default)]
pub struct Run {
    pub switches: Vec<Switch>,
    pub starts: Vec<u32>,
}

/// Runs the set with one time per segment, each at least 1, until every job is finished.
pub fn run(set: &JobSet, times: &[u32]) -> Run {
    let mut kernel = Kernel::fresh(set, times);
    loop {
        kernel.end_segment();
        if kernel.unfinished == 0 {
            return kernel.run;
        }
        kernel.release();
        kernel.dispatch();
        kernel.pass_one_tick();
    }
}

struct Kernel<'a> {
    set: &'a JobSet,
    times: &'a [u32],
    tick: u32,
    /// Jobs are in order of release, so the released ones are the first ones.
    released: usize,
    unfinished: usize,
    running: Option<usize>,
    /// The present segment of each job, and the ticks it still needs.
    present: Vec<usize>,
    missing: Vec<u32>,
    /// Larger goes first; 0 for a job that is not ready.
    urgency: Vec<u32>,
    /// An END or STEP whose switch waits for the job that runs next.
    left: Option<(Kind, u32)>,
    run: Run,
}

impl<'a> Kernel<'a> {
    fn fresh(set: &'a JobSet, times: &'a [u32]) -> Kernel<'a> {
        Kernel {
            set,
            times,
            tick: 0,
            released: 0,
            unfinished: set.jobs.len(),
            running: None,
            present: set.jobs.iter().map(|job| job.first).collect(),
            missing: set.jobs.iter().map(|job| times[job.first]).collect(),
            urgency: vec![0; set.jobs.len()],
            left: None,
            run: Run::default(),
        }
    }

    /// Point 1: a segment that has had its time ends.
    fn end_segment(&mut self) {
        let job = match self.running {
            Some(job) if self.missing[job] == 0 => job,
            _ => return,
        };
        self.running = None;
        self.present[job] += 1;
        let segment = self.present[job];
        if segment < self.set.jobs[job].end {
            self.missing[job] = self.times[segment];
            self.urgency[job] = urgency(self.set.segments[segment].priority, true, job);
            self.left = Some((Kind::Step, self.tick));
            return;
        }
        self.urgency[job] = 0;
        self.unfinished -= 1;
        self.left = Some((Kind::End, self.tick));
        if self.unfinished == 0 {
            self.note(Kind::End, self.tick, NONE, NONE);
        }
    }

    /// Point 2: jobs released at this tick become ready, not begun and so at their base.
    fn release(&mut self) {
        while let Some(job) = self.set.jobs.get(self.released) {
            if job.release > self.tick {
                break;
            }
            self.urgency[self.released] = urgency(job.base, false, self.released);
            self.released += 1;
        }
    }

    /// Point 3: the most urgent ready job is dispatched, and a change of job becomes a switch.
    fn dispatch(&mut self) {
        let most = self.urgency[..self.released].iter().copied().max().unwrap_or(0);
        if most == 0 {
            return;
        }
        let next = job_of(most);
        if self.running == Some(next) {
            return;
        }
        let (kind, tick) = match self.left.take() {
            Some(left) => left,
            None if self.running.is_some() => (Kind::Cut, self.tick),
            None => (Kind::First, self.tick),
        };
        let segment = self.present[next];
        self.note(kind, tick, next as u32, (segment - self.set.jobs[next].first) as u32);
        self.running = Some(next);
        // From its dispatch on the job is begun and has the ceilings of its present segment.
        self.urgency[next] = urgency(self.set.segments[segment].priority, true, next);
    }

    /// Point 4: the dispatched job runs for one tick, or the tick just passes.
    fn pass_one_tick(&mut self) {
        if let Some(job) = self.running {
            self.missing[job] -= 1;
        }
        self.tick += 1;
    }

    fn note(&mut self, kind: Kind, tick: u32, job: u32, segment: u32) {
        self.run.switches.push(Switch { kind, tick, job, segment });
        self.run.starts.push(self.tick);
    }
}

/// One number in the order of dispatch: priority, then begun before not begun, then the lower job
/// number. Never 0, because a priority is at least 1.
fn urgency(priority: u8, begun: bool, job: usize) -> u32 {
    u32::from(priority) << 9 | u32::from(begun) << 8 | (255 - job as u32)
}

fn job_of(urgency: u32) -> usize {
    255 - (urgency & 255) as usize
}
