//! The desk program beside the second implementation of the job: each job's sheet compared to the byte, but for the list of a `loose` line, where
//! every ring of marked places will do.

use crate::job::{self, Event};
use crate::job_cases;
use crate::prng::Prng;
use crate::program::{self, Feed};
use std::collections::BTreeMap;
use std::sync::atomic::{AtomicUsize, Ordering};
use std::thread;

/// Jobs at random.
const JOBS: usize = 20_000;
const THREADS: usize = 2;

/// Every outcome that must be met: first byte of the command (0: no command), and what came of it.
const OUTCOMES: [(u8, &[&str]); 14] = [
    (0x01, &["first plan", "another plan", "refused 1", "refused 8"]),
    (0x02, &["done", "refused 2", "refused 8", "refused 9, no plan", "refused 9, outside"]),
    (0x03, &["done", "refused 8", "refused 9, no plan", "refused 9, outside"]),
    (0x04, &["done", "refused 8", "refused 9, no plan", "refused 9, outside"]),
    (0x05, &["done", "no marks", "no marks at the end", "refused 8", "refused 9, no plan", "refused 9, outside"]),
    (0x06, &["recovered", "recovered 0", "loose", "crossed", "recovered, large", "loose, large", "crossed, large", "refused 9, no plan"]),
    (0x07, &["done", "refused 9, no plan"]),
    (0x08, &["done", "refused 8", "refused 9, no plan", "refused 9, outside"]),
    (0x09, &["done", "refused 9, no plan"]),
    (0x0A, &["first plan", "another plan", "refused 1", "refused 8", "refused 10"]),
    (0x0B, &["first plan", "another plan", "refused 1", "refused 8", "refused 10"]),
    (0x0C, &["first plan", "another plan", "refused 1", "refused 8", "refused 10"]),
    (0x0D, &["no marks", "empty", "listed", "listed, large", "all marked", "refused 9, no plan"]),
    (0, &["refused 7", "end"]),
];
/// Each at least so often.
const EACH: usize = 100;

/// Kinds of jobs, and how many of each there are at least.
const KINDS: [(&str, usize); 12] = [
    ("in cuts", 2_000),
    ("from a file", 1_000),
    ("three plans or more", 2_000),
    ("1,000 commands or more", 50),
    ("a sheet of 65,536 bytes or more", 10),
    ("empty", 50),
    ("0D before 06", 1_000),
    ("0D after recovered", 500),
    ("0D after loose", 500),
    ("0D after crossed", 500),
    ("loose, fetched and recovered", 200),
    ("a line of 100,000 bytes or more", 10),
];

#[derive(Default)]
pub struct Met {
    jobs: usize,
    events: BTreeMap<Event, usize>,
    kinds: [usize; KINDS.len()],
    mismatches: usize,
}

impl Met {
    fn add(&mut self, other: Met) {
        self.jobs += other.jobs;
        other.events.into_iter().for_each(|(event, count)| *self.events.entry(event).or_default() += count);
        (0..KINDS.len()).for_each(|i| self.kinds[i] += other.kinds[i]);
        self.mismatches += other.mismatches;
    }

    /// One job, fixed or at random. It depends on the seed and its number alone.
    fn try_job(&mut self, fixed: &[Vec<u8>], seed: u64, number: usize) {
        self.jobs += 1;
        let mut rng = Prng::of(Prng::of(seed ^ number as u64).next());
        let job = if number < fixed.len() { fixed[number].clone() } else { job_cases::random(&mut rng) };
        let wanted = job::sheet(&job);
        let mut cuts = vec![];
        let feed = match rng.below(8) {
            0 => {
                let most = rng.pick(&[1, 3, 8, 100, 5_000]);
                let mut sum = 0;
                while sum < job.len() {
                    cuts.push(rng.between(1, most));
                    sum += cuts[cuts.len() - 1];
                }
                Feed::Cuts(&cuts)
            }
            1 => Feed::File,
            _ => Feed::Pipe,
        };
        let ran = program::run(&job, feed);
        if let Some(why) = ran.fault().or_else(|| wanted.differs(&ran.sheet)) {
            self.mismatches += 1;
            if self.mismatches <= 5 {
                let cut = |text: &str| text.chars().take(600).collect::<String>();
                let hex: String = job.iter().map(|byte| format!("{byte:02X} ")).collect();
                println!("MISMATCH desk: job {number}, {} bytes: {}\n  {}", job.len(), cut(&hex), cut(&why));
            }
        }
        // a program that hangs would do so again and again
        if program::hung(ran.status) {
            println!("differential tests FAILED: the desk program hangs");
            std::process::exit(1);
        }
        let plans = wanted.events.iter().filter(|(_, word)| word.ends_with("plan") && !word.starts_with("refused")).count();
        let followed = |first: fn(&Event) -> bool, then: fn(&Event) -> bool| wanted.events.windows(2).any(|two| first(&two[0]) && then(&two[1]));
        let fetch = |event: &Event| event.0 == 0x0D;
        let of_kind = [
            matches!(feed, Feed::Cuts(_)),
            matches!(feed, Feed::File),
            plans >= 3,
            wanted.events.len() > 1_000,
            ran.sheet.len() >= 65_536,
            job.is_empty(),
            followed(fetch, |event| event.0 == 0x06),
            followed(|event| event.1.starts_with("recovered"), fetch),
            followed(|event| event.1.starts_with("loose"), fetch),
            followed(|event| event.1.starts_with("crossed"), fetch),
            fetched_and_recovered(&wanted.events),
            ran.sheet.split(|byte| *byte == b'\n').any(|line| line.len() >= 100_000),
        ];
        (0..KINDS.len()).for_each(|i| self.kinds[i] += usize::from(of_kind[i]));
        wanted.events.into_iter().for_each(|event| *self.events.entry(event).or_default() += 1);
    }

    /// The table, and whether all is well.
    pub fn report(&self) -> bool {
        println!("jobs, by {}", program::path().display());
        let mut enough = true;
        let mut cell = |what: &str, count: usize, least: usize| {
            enough &= count >= least;
            format!("{what}: {count}{}", if count < least { " TOO FEW" } else { "" })
        };
        for (first, words) in OUTCOMES {
            let cells: Vec<String> = words.iter().map(|word| cell(word, self.events.get(&(first, *word)).copied().unwrap_or(0), EACH)).collect();
            println!("{:<7}{}", if first == 0 { "job".to_string() } else { format!("{first:02X}") }, cells.join("; "));
        }
        let cells: Vec<String> = KINDS.iter().zip(self.kinds).map(|((what, least), count)| cell(what, count, *least)).collect();
        cells.chunks(6).for_each(|row| println!("jobs   {}", row.join("; ")));
        println!("{} jobs, {} mismatches", self.jobs, self.mismatches);
        enough && self.mismatches == 0
    }
}

/// Whether there is a loose block in which no more than a fetch list was set before it was recovered.
fn fetched_and_recovered(events: &[Event]) -> bool {
    events.windows(2).enumerate().any(|(i, two)| {
        let then = events[i + 2..].iter().find(|event| event.0 != 0x03);
        two[0].1.starts_with("loose") && two[1].0 == 0x0D && then.is_some_and(|event| event.1.starts_with("recovered"))
    })
}

/// All jobs.
pub fn run(seed: u64) -> Met {
    let fixed = job_cases::fixed();
    let jobs = fixed.len() + JOBS;
    let next = AtomicUsize::new(0);
    let mut met = Met::default();
    thread::scope(|scope| {
        let work = || {
            let mut met = Met::default();
            loop {
                let number = next.fetch_add(1, Ordering::Relaxed);
                if number >= jobs {
                    return met;
                }
                met.try_job(&fixed, seed, number);
            }
        };
        let workers: Vec<_> = (0..THREADS).map(|_| scope.spawn(work)).collect();
        workers.into_iter().for_each(|worker| met.add(worker.join().expect("a thread of jobs")));
    });
    met
}
