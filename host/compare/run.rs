//! Runs the families by rounds, each round on all cores.
use crate::crash;
use crate::families::Family;
use crate::input::{Difference, Input, Tally};
use std::sync::atomic::{AtomicUsize, Ordering};
use std::thread;
use std::time::{Duration, Instant};

/// So many inputs are shared out at a time. After a round with a difference no other begins.
const ROUND: usize = 4096;

const BETWEEN_PROGRESS: Duration = Duration::from_secs(5);

/// An input on which the two sides differ.
pub struct Found<I> {
    pub family: &'static str,
    pub index: usize,
    pub input: I,
    pub difference: Difference,
}

pub struct Run<I: Input> {
    pub tally: Tally<I::Answers>,
    pub found: Vec<Found<I>>,
    /// Each family with how many of its inputs were run.
    pub families: Vec<(&'static str, usize)>,
}

pub fn run<I: Input>(families: &[Family<I>]) -> Run<I> {
    let mut run = Run { tally: Tally::default(), found: Vec::new(), families: Vec::new() };
    let mut progress = Progress::new(I::NAME, families.iter().map(Family::count).sum());
    for family in families {
        run.families.push((family.name, 0));
        for first in (0..family.count()).step_by(ROUND) {
            let last = family.count().min(first + ROUND);
            round(family, first, last, &mut run);
            run.families.last_mut().expect("just pushed").1 = last;
            progress.tell(run.tally.inputs);
            if !run.found.is_empty() {
                return run;
            }
        }
    }
    run
}

/// The inputs from `first` to before `last`. Which thread takes which does not show in the sums, nor in what was found.
fn round<I: Input>(family: &Family<I>, first: usize, last: usize, run: &mut Run<I>) {
    let next = AtomicUsize::new(first);
    let cores = thread::available_parallelism().map_or(1, usize::from);
    let parts: Vec<Met<I>> = thread::scope(|scope| {
        let threads: Vec<_> = (0..cores).map(|_| scope.spawn(|| work(family, &next, last))).collect();
        threads.into_iter().map(|thread| thread.join().expect("panics are caught")).collect()
    });
    for (tally, found) in parts {
        run.tally.add(&tally);
        run.found.extend(found);
    }
    run.found.sort_by_key(|found| (found.input.size(), found.index));
}

/// What one thread met in a round.
type Met<I> = (Tally<<I as Input>::Answers>, Vec<Found<I>>);

fn work<I: Input>(family: &Family<I>, next: &AtomicUsize, last: usize) -> Met<I> {
    let (mut tally, mut found) = (Tally::default(), Vec::new());
    let indices = std::iter::repeat_with(|| next.fetch_add(1, Ordering::Relaxed)).take_while(|index| *index < last);
    for index in indices {
        crash::now_at(I::COMMAND, family.name, index);
        let input = family.input(index);
        if let Err(difference) = input.check(&mut tally) {
            found.push(Found { family: family.name, index, input, difference });
        }
    }
    (tally, found)
}

struct Progress {
    name: &'static str,
    all: usize,
    begun: Instant,
    told: Instant,
}

impl Progress {
    fn new(name: &'static str, all: usize) -> Self {
        Progress { name, all, begun: Instant::now(), told: Instant::now() }
    }

    fn tell(&mut self, done: u64) {
        if self.told.elapsed() > BETWEEN_PROGRESS {
            self.told = Instant::now();
            eprintln!("{done} of {} {}, {} s", self.all, self.name, self.begun.elapsed().as_secs());
        }
    }
}
