//! All cases, shared among as many threads as the machine runs at once. A case depends on the seed and
//! its number alone, so it does not matter which thread has it.

use std::thread;

use crate::bounds;
use crate::counts::Counts;
use crate::difference::{caught, hex, Same};
use crate::fence::Edge;
use crate::random::Random;
use crate::renewals;
use crate::stretches::Case;
use crate::walk;

/// The number of a case where the receivers differ, and all that is to be told of it.
type Told = (u64, String);

/// What a thread compares, and how it is named in a difference.
struct Job {
    name: String,
    case: Case,
    edge: Option<Edge>,
    /// By what it is cut and split.
    random: Random,
}

/// Compares so many stretches by chance.
pub fn compare(seed: u64, stretches: u64) -> Result<Counts, String> {
    shared(stretches, |stretch| {
        let mut random = Random::of(seed, stretch);
        Job {
            name: format!("seed {seed}, stretch {stretch}"),
            case: Case::any(&mut random),
            edge: Edge::of(stretch),
            random,
        }
    })
}

/// Compares so many stretches of many new announcements.
pub fn compare_renewals(seed: u64, stretches: u64) -> Result<Counts, String> {
    shared(stretches, |stretch| {
        let mut random = Random::of(seed, stretch);
        Job {
            name: format!("seed {seed}, stretch of new announcements {stretch}"),
            case: renewals::case(&mut random),
            edge: Edge::of(stretch),
            random,
        }
    })
}

/// Compares all cases at the limits; answers how many they are besides.
pub fn compare_bounds(seed: u64) -> Result<(u64, Counts), String> {
    let all = bounds::all();
    let counts = shared(all.len() as u64, |number| {
        let (bound, edge) = all[number as usize];
        Job {
            name: format!("seed {seed}, at the limits {number}, {bound:?}, at {edge:?}"),
            case: bound.case(),
            edge,
            random: Random::of(seed, number),
        }
    })?;
    Ok((all.len() as u64, counts))
}

/// Shares so many cases among the threads. Of several differences the first case's is told.
fn shared(cases: u64, job: impl Fn(u64) -> Job + Sync) -> Result<Counts, String> {
    let threads = thread::available_parallelism().map_or(1, usize::from);
    let job = &job;
    let shares: Vec<_> = thread::scope(|scope| {
        let spawn = |first| scope.spawn(move || share(job, (first..cases).step_by(threads)));
        let running: Vec<_> = (0..threads as u64).map(spawn).collect();
        let join = running.into_iter().map(|share| share.join());
        join.map(|share| share.expect("a share catches its panics"))
            .collect()
    });
    let mut all = Counts::default();
    let mut differences = vec![];
    for share in shares {
        match share {
            Ok(counts) => all.add(&counts),
            Err(told) => differences.push(told),
        }
    }
    match differences.into_iter().min() {
        Some((_, told)) => Err(told),
        None => Ok(all),
    }
}

/// One thread's cases, up to its first difference.
fn share(job: impl Fn(u64) -> Job, cases: impl Iterator<Item = u64>) -> Result<Counts, Told> {
    let mut counts = Counts::default();
    for number in cases {
        one(job(number), &mut counts).map_err(|told| (number, told))?;
    }
    Ok(counts)
}

/// One case; a difference is told with all that is needed to have it again.
fn one(mut job: Job, counts: &mut Counts) -> Result<(), String> {
    counts.lent(job.edge);
    let compared = compared(&job.case, job.edge, &mut job.random, counts);
    compared.map_err(|difference| {
        let (name, case) = (job.name, job.case);
        format!(
            "compare: a difference; {name}, {difference}\n\
             image of {}, budget {}\nrecord: {:?}\nstretch: {}",
            case.image.len(),
            case.budget,
            case.record,
            hex(&case.stretch),
        )
    })
}

/// What both make of one case.
fn compared(case: &Case, edge: Option<Edge>, random: &mut Random, counts: &mut Counts) -> Same {
    caught(|| walk::compare(case, edge, random, counts))
}
