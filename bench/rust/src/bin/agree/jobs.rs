//! What is compared, in jobs that run beside one another, and how many cases each kind had.

use crate::case::Case;
use crate::generate::{random_cases, short_cases};
use crate::{bit_cases, count_cases, error_cases, piece_cases, search_cases, search_run_cases, shrink, text_cases, tree_cases};
use std::sync::Mutex;
use std::thread;
use winnow_bench::inputs::Random;
use winnow_bench::ours::Room;

/// How many cases of most kinds look random.
const RANDOM_CASES: usize = 100_000;

/// In so many parts the random scripts over pieces are compared, each from a seed of its own, so that the scripts are the same ones on any machine.
const PARTS: usize = 64;

/// How many scripts over pieces look random, and from which seed they come.
pub struct Wanted {
    pub scripts: usize,
    pub seed: u64,
}

impl Wanted {
    /// What the words of the command ask for; `None` where they are none of its words.
    pub fn read(mut words: impl Iterator<Item = String>) -> Option<Wanted> {
        let mut wanted = Wanted { scripts: 1_000_000, seed: 37 };
        while let Some(word) = words.next() {
            let number = words.next()?.parse().ok()?;
            match word.as_str() {
                "--scripts" => wanted.scripts = usize::try_from(number).ok()?,
                "--seed" => wanted.seed = number,
                _ => return None,
            }
        }
        Some(wanted)
    }
}

/// Cases of a kind, and what compares them: how many they were, or the first that differs.
pub struct Job {
    kind: &'static str,
    compare: Box<dyn Fn(&mut Room) -> Result<usize, String> + Send + Sync>,
}

impl Job {
    fn new(kind: &'static str, compare: impl Fn(&mut Room) -> Result<usize, String> + Send + Sync + 'static) -> Job {
        Job { kind, compare: Box::new(compare) }
    }
}

/// All jobs, the long ones first.
pub fn all(wanted: &Wanted) -> Vec<Job> {
    let mut jobs = vec![
        Job::new("cases", compare_cases),
        Job::new("of bits", |room| bit_cases::compare_bits(room, RANDOM_CASES)),
        Job::new("searches", |room| search_cases::compare_searches(room, RANDOM_CASES)),
        Job::new("sets", search_cases::compare_sets),
        Job::new("texts", |room| error_cases::compare_errors(room, RANDOM_CASES)),
        Job::new("ranges", count_cases::compare_ranges),
        Job::new("readings", |room| count_cases::compare_readings(room, RANDOM_CASES)),
        Job::new("lists gathered", |room| count_cases::compare_accumulators(room, RANDOM_CASES)),
        Job::new("runs that search", |room| search_run_cases::compare_search_runs(room, RANDOM_CASES)),
        Job::new("texts of bytes", text_cases::compare_byte_texts),
        Job::new("trees", |room| tree_cases::compare_trees(room, RANDOM_CASES)),
        #[cfg(winnow_hooks)]
        Job::new("places", |room| crate::place_cases::compare_places(room, RANDOM_CASES)),
        Job::new(PIECES, piece_cases::compare_short_pieces),
    ];
    let mut seeds = Random::new(wanted.seed);
    jobs.extend((0..PARTS).map(|part| {
        let scripts = (part + 1) * wanted.scripts / PARTS - part * wanted.scripts / PARTS;
        let seed = seeds.next();
        Job::new(PIECES, move |room| piece_cases::compare_random_pieces(room, scripts, seed))
    }));
    jobs
}

const PIECES: &str = "scripts in pieces";

fn compare_cases(room: &mut Room) -> Result<usize, String> {
    let mut count = 0;
    let mut differs = |case: &Case| {
        count += 1;
        case.differs(room)
    };
    match short_cases().chain(random_cases(RANDOM_CASES)).find(&mut differs) {
        Some(case) => Err(shrink::smallest(case, room).told(room)),
        None => Ok(count),
    }
}

/// Runs the jobs on all processors: how many cases of each kind were compared, or a difference.
pub fn run(jobs: &[Job]) -> Result<Vec<(&'static str, usize)>, String> {
    let left = Mutex::new(jobs.iter());
    let next = || left.lock().ok().and_then(|mut left| left.next());
    let work = || {
        let mut room = Room::new();
        let mut compared = Vec::new();
        while let Some(job) = next() {
            compared.push((job.kind, (job.compare)(&mut room)?));
        }
        Ok(compared)
    };
    let workers = thread::available_parallelism().map_or(1, usize::from);
    let compared: Vec<Result<Vec<_>, String>> = thread::scope(|scope| {
        let workers: Vec<_> = (0..workers).map(|_| scope.spawn(work)).collect();
        workers.into_iter().map(|worker| worker.join().unwrap_or_else(|_| Err("a comparison panicked".to_owned()))).collect()
    });
    let compared = compared.into_iter().collect::<Result<Vec<_>, String>>()?.concat();
    let mut kinds: Vec<(&'static str, usize)> = Vec::new();
    for job in jobs {
        if kinds.iter().all(|(kind, _)| *kind != job.kind) {
            let counts = compared.iter().filter(|(kind, _)| *kind == job.kind).map(|(_, count)| count);
            kinds.push((job.kind, counts.sum()));
        }
    }
    Ok(kinds)
}
