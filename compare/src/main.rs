//! Compares the array store's exported C functions with documents 01 and 02, read here a second time. See README.md.
//!
//! To add a call: its declaration and wrapper in library.rs, its definition in code.rs, download.rs, generator.rs or a
//! file beside them, its kinds in a file of their own, and a line in KINDS. What the kinds share is in calls.rs.

mod arithmetic;
mod bundles;
mod calls;
mod code;
mod download;
mod editions;
mod encodings;
mod field;
mod generator;
mod library;
mod plans;
mod random;
mod readings;
mod rebuilds;
mod recordings;
mod solving;
mod surveys;

use random::Random;

/// How many cases of one sort agreed, and of refused calls how many with each refusal.
pub struct Count {
    pub what: &'static str,
    pub cases: usize,
    pub by_refusal: Vec<(u8, usize)>,
}

impl Count {
    pub fn of(what: &'static str, cases: usize) -> Count {
        Count { what, cases, by_refusal: Vec::new() }
    }
}

impl std::fmt::Display for Count {
    fn fmt(&self, to: &mut std::fmt::Formatter) -> std::fmt::Result {
        write!(to, "{} {}", self.what, self.cases)?;
        for (index, (number, cases)) in self.by_refusal.iter().enumerate() {
            write!(to, "{} {cases} with {number}", if index == 0 { ":" } else { "," })?;
        }
        Ok(())
    }
}

/// The counts, or the first disagreement with its whole case on one line.
pub type Outcome = Result<Vec<Count>, String>;

/// Each kind has a generator of its own, so that a new kind changes no other's cases; so new ones go last.
const KINDS: [fn(&mut Random) -> Outcome; 24] = [
    arithmetic::products,
    arithmetic::inverses,
    arithmetic::samples,
    encodings::samples,
    encodings::row_codes,
    encodings::encodings,
    plans::samples,
    plans::place_lists,
    plans::plans,
    bundles::samples,
    bundles::bundles,
    rebuilds::samples,
    rebuilds::recovered,
    rebuilds::rebuilds,
    readings::samples,
    readings::recovered,
    readings::readings,
    surveys::samples,
    surveys::surveys,
    recordings::two_runs,
    recordings::old_bundles,
    editions::samples,
    editions::two_plans,
    editions::two_editions,
];

const SEED: u64 = 1;

pub fn hex(bytes: &[u8]) -> String {
    bytes.iter().map(|byte| format!("{byte:02x}")).collect()
}

fn run(seed: u64) -> Result<usize, String> {
    let mut cases = 0;
    for (index, kind) in KINDS.iter().enumerate() {
        let own_seed = Random::new(seed).number().wrapping_add(index as u64);
        for count in kind(&mut Random::new(own_seed))? {
            println!("{count}");
            cases += count.cases;
        }
    }
    Ok(cases)
}

fn main() {
    let seed = match std::env::args().nth(1).map(|word| word.parse()) {
        None => SEED,
        Some(Ok(seed)) => seed,
        Some(Err(_)) => {
            eprintln!("compare: the seed must be a decimal number below 2^64");
            std::process::exit(2);
        }
    };
    match run(seed) {
        Ok(cases) => println!("compare: all {cases} cases agree"),
        Err(disagreement) => {
            println!("compare: seed {seed}: {disagreement}");
            std::process::exit(1);
        }
    }
}
