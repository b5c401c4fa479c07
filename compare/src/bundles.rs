//! The kinds about writing a bundle: the sample, accepted and refused calls.

use crate::calls::{
    every_lost_node, every_shape, random_profile, random_recording, replace_number, small_and_refused_numbers,
    small_like, Call, Tally,
};
use crate::code::{self, Profile, Refusal, EDITIONS};
use crate::download::{Recording, Wanted};
use crate::library::{self, Answer, Lent};
use crate::random::Random;
use crate::{hex, Count, Outcome};

/// "The whole bundle of M4, node 0, scenario 7", which is of edition 1. K2: "document 01's sample bundle, with run 0,
/// has 67 bytes."
pub const SAMPLE: [u8; 67] = [
    0x01, 0x00, 0x06, 0x04, 0x02, 0x02, 0x02, 0x00, 0x01, //
    0x02, 0x00, 0x07, 0x00, 0x00, 0x00, 0x00, 0x07, 0x00, 0x00, //
    0x03, 0x00, 0x09, 0x01, 0x00, 0x00, 0x00, 0x00, 0x07, 0x00, 0x00, 0x02, //
    0x03, 0x00, 0x09, 0x02, 0x00, 0x00, 0x00, 0x00, 0x07, 0x00, 0x00, 0x07, //
    0x03, 0x00, 0x09, 0x03, 0x00, 0x00, 0x00, 0x00, 0x07, 0x00, 0x00, 0x0C, //
    0x03, 0x00, 0x09, 0x02, 0x01, 0x00, 0x00, 0x00, 0x07, 0x00, 0x00, 0x00,
];

/// Document 01's own: "The whole bundle of M4, node 0, scenario 7, 57 bytes".
pub const OLD_SAMPLE: [u8; 57] = [
    0x01, 0x00, 0x06, 0x04, 0x02, 0x02, 0x02, 0x00, 0x01, //
    0x02, 0x00, 0x05, 0x00, 0x00, 0x00, 0x00, 0x07, //
    0x03, 0x00, 0x07, 0x01, 0x00, 0x00, 0x00, 0x00, 0x07, 0x02, //
    0x03, 0x00, 0x07, 0x02, 0x00, 0x00, 0x00, 0x00, 0x07, 0x07, //
    0x03, 0x00, 0x07, 0x03, 0x00, 0x00, 0x00, 0x00, 0x07, 0x0C, //
    0x03, 0x00, 0x07, 0x02, 0x01, 0x00, 0x00, 0x00, 0x07, 0x00,
];

/// The same bundle in edition 2. K6: "Field 01 gets a last byte, edition 2, and length 7"; the plan is the same.
pub const SAMPLE_IN_EDITION_2: [u8; 68] = [
    0x01, 0x00, 0x07, 0x04, 0x02, 0x02, 0x02, 0x00, 0x01, 0x02, //
    0x02, 0x00, 0x07, 0x00, 0x00, 0x00, 0x00, 0x07, 0x00, 0x00, //
    0x03, 0x00, 0x09, 0x01, 0x00, 0x00, 0x00, 0x00, 0x07, 0x00, 0x00, 0x02, //
    0x03, 0x00, 0x09, 0x02, 0x00, 0x00, 0x00, 0x00, 0x07, 0x00, 0x00, 0x07, //
    0x03, 0x00, 0x09, 0x03, 0x00, 0x00, 0x00, 0x00, 0x07, 0x00, 0x00, 0x0C, //
    0x03, 0x00, 0x09, 0x02, 0x01, 0x00, 0x00, 0x00, 0x07, 0x00, 0x00, 0x00,
];

/// What the bundle of 67 bytes and that of 57 are cut for, the older one without the run.
pub const SAMPLE_WANTED: Wanted = Wanted {
    profile: Profile { n: 4, k: 2, rows: 2, t: 2, s: 1, edition: 1 },
    lost: 0,
    recording: Recording { scenario: 7, run: 0 },
};

/// M4's array.
const SAMPLE_ARRAY: [u8; 8] = [0x01, 0x04, 0x02, 0x04, 0x07, 0x00, 0x0C, 0x0C];

/// One call: what the bundle is cut for, the array and what the buffer for the bundle holds before.
struct Case {
    wanted: Wanted,
    array: Vec<u8>,
    bundle: Vec<u8>,
}

impl Case {
    /// Random bytes of these lengths: "A stored array is any nAS bytes."
    fn new(wanted: Wanted, array_length: usize, bundle_length: usize, random: &mut Random) -> Case {
        Case { wanted, array: random.bytes(array_length), bundle: random.bytes(bundle_length) }
    }

    fn disagreement(&self, what: String) -> String {
        let Wanted { profile, lost, recording: Recording { scenario, run } } = self.wanted;
        let (array_length, bundle_length) = (self.array.len(), self.bundle.len());
        let (array, bundle) = (hex(&self.array), hex(&self.bundle));
        format!(
            "write_bundle {profile} lost={lost} scenario={scenario} run={run} \
             array_len={array_length} array={array} bundle_len={bundle_length} bundle={bundle}: {what}"
        )
    }

    /// Calls the library; compares answer, bytes written and every byte that must not change with the bundle or the
    /// refusal in `expected`.
    fn call(&self, expected: Result<&[u8], Refusal>, random: &mut Random) -> Result<(), String> {
        let mut array = Lent::new(&self.array, random);
        let mut bundle = Lent::new(&self.bundle, random);
        let answer = library::write_bundle(&self.wanted, &mut array, &mut bundle);
        let due = Answer::due(expected.map(<[u8]>::len));
        if answer != due {
            return Err(self.disagreement(format!("the library answers {answer}, expected {due}")));
        }
        if let Some(change) = array.change() {
            return Err(self.disagreement(format!("the array is changed, {change}")));
        }
        let written = expected.unwrap_or(&[]);
        if let Some(change) = bundle.change_outside(written.len()) {
            return Err(self.disagreement(format!("the bundle's buffer is changed where it must stay, {change}")));
        }
        let given = &bundle.bytes()[..written.len()];
        if let Some(at) = (0..written.len()).find(|&at| given[at] != written[at]) {
            let (is, due, whole) = (given[at], written[at], hex(given));
            let what = format!("byte {at} is {is:02x}, expected {due:02x}; the library's bundle is {whole}");
            return Err(self.disagreement(what));
        }
        Ok(())
    }
}

impl Call for Case {
    fn compare(&self, random: &mut Random) -> Result<Option<Refusal>, String> {
        let expected = self.wanted.write_bundle(&self.array, self.bundle.len());
        self.call(expected.as_deref().map_err(|&refusal| refusal), random)?;
        Ok(expected.err())
    }
}

/// Document 01's whole bundle with run 0, in either edition.
pub fn samples(random: &mut Random) -> Outcome {
    for (edition, expected) in [(1, &SAMPLE[..]), (2, &SAMPLE_IN_EDITION_2)] {
        let wanted = SAMPLE_WANTED.in_edition(edition);
        let case = Case { wanted, array: SAMPLE_ARRAY.to_vec(), bundle: vec![0xEE; expected.len()] };
        case.call(Ok(expected), random)?;
    }
    Ok(vec![Count::of("samples of bundles", 2)])
}

/// Whole calls, each counted as accepted or refused.
pub fn bundles(random: &mut Random) -> Outcome {
    let mut tally = Tally::default();
    every_bundle(&mut tally, random)?;
    every_run(&mut tally, random)?;
    long_strips(&mut tally, random)?;
    every_number(&mut tally, random)?;
    mixed_calls(&mut tally, random)?;
    tally.counts("bundles written", "bundles refused", &[1, 2, 3, 13, 4, 5])
}

/// Each accepted (n, k, A) and each lost node in either edition, then the first nodes past the last, with all lengths.
fn every_bundle(tally: &mut Tally, random: &mut Random) -> Result<(), String> {
    let mut all = every_lost_node(random);
    for wanted in every_shape(1..=8, random) {
        let n = wanted.profile.n;
        all.extend([n, n + 1].map(|lost| Wanted { lost, ..wanted }));
    }
    for wanted in all {
        every_length(wanted, tally, random)?;
    }
    Ok(())
}

/// Each run of the sample's scenario, in either edition.
fn every_run(tally: &mut Tally, random: &mut Random) -> Result<(), String> {
    for run in 0..=u16::MAX {
        let wanted = SAMPLE_WANTED.with_run(run).in_edition(random.one_of(&EDITIONS));
        tally.compare(Case::new(wanted, SAMPLE_ARRAY.len(), wanted.bundle_length(), random), random)?;
    }
    Ok(())
}

/// Each accepted (n, k, A) with strips at the ceiling, and where the length of a field 03 first needs its high byte:
/// 8+S is 255 or 256.
fn long_strips(tally: &mut Tally, random: &mut Random) -> Result<(), String> {
    for lengths in [247..=248, 248..=510, 511..=512, 512..=512] {
        for wanted in every_shape(lengths, random) {
            let (array_length, bundle_length) = (wanted.profile.array_length(), wanted.bundle_length());
            tally.compare(Case::new(wanted, array_length, bundle_length, random), random)?;
        }
    }
    Ok(())
}

/// The lengths to lend with these numbers: those that fit, or fit what a narrower type leaves, and those one off (of
/// which one is that of a bundle in the other edition), exchanged or 0, and that of a bundle without a run.
fn lengths_for(wanted: &Wanted) -> [(usize, usize); 12] {
    let small = small_like(wanted);
    let (array, bundle) = (small.profile.array_length(), small.bundle_length());
    let (less_array, less_bundle) = (array.saturating_sub(1), bundle - 1);
    [
        (array, bundle),
        (less_array, bundle),
        (array + 1, bundle),
        (array, less_bundle),
        (array, bundle + 1),
        (less_array, bundle + 1),
        (array + 1, less_bundle),
        (bundle, array),
        (0, bundle),
        (array, 0),
        (0, 0),
        (array, small.old_bundle_length()),
    ]
}

fn every_length(wanted: Wanted, tally: &mut Tally, random: &mut Random) -> Result<(), String> {
    for (array_length, bundle_length) in lengths_for(&wanted) {
        tally.compare(Case::new(wanted, array_length, bundle_length, random), random)?;
    }
    Ok(())
}

/// All small numbers, and every mixture of refusals 1, 2, 3, 13, 4 and 5, also of none.
fn every_number(tally: &mut Tally, random: &mut Random) -> Result<(), String> {
    for (profile, lost) in small_and_refused_numbers(random) {
        every_length(Wanted { profile, lost, recording: random_recording(random) }, tally, random)?;
    }
    Ok(())
}

/// Accepted numbers, perhaps some of them replaced by others, and any of the lengths.
fn mixed_calls(tally: &mut Tally, random: &mut Random) -> Result<(), String> {
    let accepted = code::all_accepted();
    for _ in 0..100_000 {
        let (n, k, rows) = random.one_of(&accepted);
        let given = Profile { s: random.between(1, 8), ..random_profile(n, k, rows, random) };
        let (mut profile, mut lost) = (given, random.between(0, n - 1));
        for _ in 0..random.between(0, 2) {
            replace_number(&given, &mut profile, &mut lost, random);
        }
        let wanted = Wanted { profile, lost, recording: random_recording(random) };
        let lengths = lengths_for(&wanted);
        let any = random.one_of(&lengths);
        let (array_length, bundle_length) = random.one_of(&[lengths[0], any]);
        tally.compare(Case::new(wanted, array_length, bundle_length, random), random)?;
    }
    Ok(())
}
