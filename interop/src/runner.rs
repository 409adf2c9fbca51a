//! Runs groups of cases on all processors. Every case has its own generator,
//! made from the seed, the group and the case's number, so each can be repeated
//! alone.

use crate::same::Outcome;
use crate::tally::Tally;
use crate::{big, calls, firmware, lists, mail, mail_lists, messages, sweeps, wall_lists, walls};
use model::generate::Rng;
use std::panic::{catch_unwind, AssertUnwindSafe};
use std::sync::atomic::{AtomicBool, AtomicU64, Ordering};
use std::sync::Mutex;

/// One case, from its own generator.
pub type Check = fn(&mut Rng, &mut Tally) -> Outcome;

/// A group's name, its cases in a run of a million, and what a case is.
pub struct Group {
    pub name: &'static str,
    pub share: u64,
    pub check: Check,
    pub about: &'static str,
}

// Not a const fn: until Rust 1.83 one may not take a function that takes &mut.
macro_rules! group {
    ($name:expr, $share:expr, $check:expr, $about:expr) => {
        Group { name: $name, share: $share, check: $check, about: $about }
    };
}

pub const GROUPS: [Group; 18] = [
    group!("calls", 235_000, calls::check, "one channel call"),
    group!("lists", 10_000, lists::check, "a list of operations, both sides"),
    group!("tampered", 10_000, lists::check_tampered, "a list with foreign writes"),
    group!("odd", 10_000, lists::check_odd, "a list on sides of any words"),
    group!("packing", 220_040, messages::check_packing, "fields packed, unpacked"),
    group!("unpacking", 135_000, messages::check_unpacking, "a message unpacked, packed"),
    group!("css", 200_000, firmware::check_css, "an image, all its functions"),
    group!("cpd", 179_850, firmware::check_cpd, "a directory, all its functions"),
    group!("big", 150, big::check, "a blob up to 19 MiB"),
    group!("channels", 60, sweeps::check_channel, "all sweeps of the channel"),
    group!("firmwares", 100, sweeps::check_firmware, "all sweeps of firmware"),
    group!("walls", 2_000, wall_lists::check, "a list from a fresh table of requests"),
    group!("tables", 20_000, walls::check_table, "calls on a table of any records"),
    group!("records", 20, sweeps::check_wall, "all sweeps of a wall, and ages"),
    group!("mail", 40_000, mail::check, "one call of a record to mail home"),
    group!("runs", 8_000, mail_lists::check, "messages added, written, read, cut"),
    group!("pieces", 1_000, mail_lists::check_pieces, "a long file, piece by piece"),
    group!("files", 20, sweeps::check_mail, "all sweeps of a record to mail home"),
];

impl Group {
    /// Its cases in a run of this many; of the large blobs and the sweeps at
    /// least a few.
    pub fn cases(&self, total: u64) -> u64 {
        let share = total as u128 * self.share as u128 / 1_000_000;
        (share as u64).max(40)
    }
}

/// A difference, with what is needed to repeat it.
#[derive(Clone, Debug)]
pub struct Difference {
    pub group: &'static str,
    pub case: u64,
    pub problem: String,
}

/// The generator of one case. Mixed thrice, so that neighbours share nothing.
fn generator(seed: u64, group: usize, case: u64) -> Rng {
    let first = Rng::new(seed).draw();
    let second = Rng::new(first ^ group as u64).draw();
    Rng::new(Rng::new(second ^ case).draw())
}

/// Runs one case. A panic, of the model or of the wrapper, is a difference too.
pub fn run_one(seed: u64, group: usize, case: u64, tally: &mut Tally) -> Result<(), Difference> {
    let mut rng = generator(seed, group, case);
    let check = GROUPS[group].check;
    let problem = match catch_unwind(AssertUnwindSafe(|| check(&mut rng, tally))) {
        Ok(Ok(())) => return Ok(()),
        Ok(Err(problem)) => problem,
        Err(_) => "panicked, see above".to_string(),
    };
    Err(Difference { group: GROUPS[group].name, case, problem })
}

/// Cases taken at a time by a worker.
const CHUNK: u64 = 16;

/// Runs a group on this many threads; stops soon after the first difference.
pub fn run_group(seed: u64, group: usize, cases: u64, threads: usize) -> (Tally, Vec<Difference>) {
    let next = AtomicU64::new(0);
    let stop = AtomicBool::new(false);
    let total = Mutex::new((Tally::default(), Vec::new()));
    let work = || {
        let mut tally = Tally::default();
        while !stop.load(Ordering::Relaxed) {
            let from = next.fetch_add(CHUNK, Ordering::Relaxed);
            if from >= cases {
                break;
            }
            for case in from..cases.min(from + CHUNK) {
                if let Err(difference) = run_one(seed, group, case, &mut tally) {
                    stop.store(true, Ordering::Relaxed);
                    total.lock().expect("no worker panics").1.push(difference);
                    break;
                }
            }
        }
        total.lock().expect("no worker panics").0.add(&tally);
    };
    std::thread::scope(|scope| {
        for _ in 0..threads {
            scope.spawn(work);
        }
    });
    total.into_inner().expect("no worker panics")
}
