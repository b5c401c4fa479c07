//! The kinds about rebuilding a lost node: samples, columns that come back, accepted and refused calls.

use crate::bundles::{OLD_SAMPLE, SAMPLE, SAMPLE_IN_EDITION_2, SAMPLE_WANTED};
use crate::calls::{
    every_lost_node, every_shape, random_profile, random_recording, replace_number, small_and_refused_numbers,
    small_like, Call, Tally, EDGES_OF_RUNS,
};
use crate::code::{self, Profile, Refusal, EDITIONS};
use crate::download::{joined, Recording, Wanted};
use crate::library::{self, Answer, Lent};
use crate::random::Random;
use crate::solving;
use crate::{hex, Count, Outcome};

/// One call: what is wanted, the bundle and what the buffer for the column holds before.
pub struct Case {
    pub wanted: Wanted,
    pub bundle: Vec<u8>,
    pub column: Vec<u8>,
}

impl Case {
    fn new(wanted: Wanted, bundle: Vec<u8>, column_length: usize, random: &mut Random) -> Case {
        Case { wanted, bundle, column: random.bytes(column_length) }
    }

    /// With a buffer for the column that fits accepted numbers.
    pub fn fitting(wanted: Wanted, bundle: Vec<u8>, random: &mut Random) -> Case {
        Case::new(wanted, bundle, wanted.profile.column_length(), random)
    }

    pub fn disagreement(&self, what: String) -> String {
        let Wanted { profile, lost, recording: Recording { scenario, run } } = self.wanted;
        let (bundle_length, column_length) = (self.bundle.len(), self.column.len());
        let (bundle, column) = (hex(&self.bundle), hex(&self.column));
        format!(
            "rebuild {profile} lost={lost} scenario={scenario} run={run} \
             bundle_len={bundle_length} bundle={bundle} column_len={column_length} column={column}: {what}"
        )
    }

    /// Calls the library; compares the answer and every byte that must not change with `expected`. Gives the column
    /// as the call leaves it.
    fn call(&self, expected: Option<Refusal>, random: &mut Random) -> Result<Vec<u8>, String> {
        let mut bundle = Lent::new(&self.bundle, random);
        let mut column = Lent::new(&self.column, random);
        let answer = library::rebuild(&self.wanted, &mut bundle, &mut column);
        let due = Answer::due(expected.map_or(Ok(0), Err));
        if answer != due {
            return Err(self.disagreement(format!("the library answers {answer}, expected {due}")));
        }
        if let Some(change) = bundle.change() {
            return Err(self.disagreement(format!("the bundle is changed, {change}")));
        }
        let column_change = if expected.is_some() { column.change() } else { column.change_around() };
        if let Some(change) = column_change {
            return Err(self.disagreement(format!("the column's buffer is changed where it must stay, {change}")));
        }
        Ok(column.bytes().to_vec())
    }

    fn same_column(&self, given: &[u8], expected: &[u8]) -> Result<(), String> {
        if given == expected {
            return Ok(());
        }
        Err(self.disagreement(format!("the library's column is {}, expected {}", hex(given), hex(expected))))
    }
}

impl Call for Case {
    fn compare(&self, random: &mut Random) -> Result<Option<Refusal>, String> {
        match self.wanted.strips_for_rebuild(&self.bundle, self.column.len()) {
            Err(refusal) => {
                self.call(Some(refusal), random)?;
                Ok(Some(refusal))
            }
            Ok(strips) => {
                let given = self.call(None, random)?;
                let expected = solving::lost_column(&self.wanted.profile, self.wanted.lost, &strips, random)
                    .ok_or_else(|| self.disagreement("no encoded array has these strips".to_string()))?;
                self.same_column(&given, &expected)?;
                Ok(None)
            }
        }
    }
}

/// Document 01's M7 and M8, the edges of its bundle's length, and its bundle of 57 bytes, which K2 made an old one,
/// each wanted in either edition; and the bundle of the other edition.
pub fn samples(random: &mut Random) -> Outcome {
    let old = SAMPLE_WANTED.old_bundle(&sample_strips());
    if old != OLD_SAMPLE {
        return Err(format!("this program's old form of document 01's bundle is {}", hex(&old)));
    }
    let around = |bundle: &[u8]| [bundle[..bundle.len() - 1].to_vec(), [bundle, &[0]].concat()];
    let mut cases = 0;
    for (edition, own, other) in [(1, &SAMPLE[..], &SAMPLE_IN_EDITION_2[..]), (2, &SAMPLE_IN_EDITION_2, &SAMPLE)] {
        let m7 = SAMPLE_WANTED.in_edition(edition);
        let m8 = Wanted { lost: 3, ..m7 };
        let m8_bundle = m8.bundle(&[0x00, 0x04, 0x04, 0x02].map(|byte| vec![byte]));
        for (wanted, bundle, expected) in [(m7, own.to_vec(), [0x01, 0x04]), (m8, m8_bundle, [0x0C, 0x0C])] {
            let case = Case { wanted, bundle, column: vec![0xEE; 2] };
            let given = case.call(None, random)?;
            case.same_column(&given, &expected)?;
            cases += 1;
        }
        let refused = [&around(own)[..], &[other.to_vec(), old.clone()], &around(&OLD_SAMPLE)].concat();
        for bundle in refused {
            Case { wanted: m7, bundle, column: vec![0xEE; 2] }.call(Some(Refusal::BundleForm), random)?;
            cases += 1;
        }
    }
    Ok(vec![Count::of("samples of rebuilds", cases)])
}

/// M7's strips, which are those of document 01's bundle.
pub fn sample_strips() -> Vec<Vec<u8>> {
    [0x02, 0x07, 0x0C, 0x00].map(|byte| vec![byte]).to_vec()
}

/// Bundles cut from encoded arrays: the column that was lost comes back. Each accepted (n, k, A) with each lost node in
/// either edition and a short strip, then each with one node and strips at the ceiling.
pub fn recovered(random: &mut Random) -> Outcome {
    let mut all = every_lost_node(random);
    all.extend(every_shape(511..=512, random));
    let cases = all.len();
    for wanted in all {
        let profile = wanted.profile;
        let data = random.bytes(profile.data_length());
        let array = code::couple(&profile, &code::base_of(&profile, &data));
        let case = Case::fitting(wanted, wanted.cut(&array), random);
        let given = case.call(None, random)?;
        case.same_column(&given, profile.column_of(&array, wanted.lost))?;
    }
    Ok(vec![Count::of("columns recovered", cases)])
}

/// Whole calls, each counted as accepted or refused.
pub fn rebuilds(random: &mut Random) -> Outcome {
    let mut tally = Tally::default();
    single_strips(&mut tally, random)?;
    any_strips(&mut tally, random)?;
    every_byte_changed(&mut tally, random)?;
    other_lengths(&mut tally, random)?;
    other_forms(&mut tally, random)?;
    other_strips(&mut tally, random)?;
    other_nodes_and_recordings(&mut tally, random)?;
    other_profiles(&mut tally, random)?;
    some_bytes_changed(&mut tally, random)?;
    every_number(&mut tally, random)?;
    mixed_calls(&mut tally, random)?;
    tally.counts("rebuilds accepted", "rebuilds refused", &[1, 2, 3, 13, 4, 5, 6, 7, 8, 9])
}

/// Random strips for these accepted or small numbers.
pub fn random_strips(wanted: &Wanted, random: &mut Random) -> Vec<Vec<u8>> {
    wanted.places().iter().map(|_| random.bytes(wanted.profile.s)).collect()
}

/// A bundle in order for these accepted or small numbers, with random strips.
pub fn random_bundle(wanted: &Wanted, random: &mut Random) -> Vec<u8> {
    wanted.bundle(&random_strips(wanted, random))
}

/// Each accepted (n, k, A) with strips that are zero but for one byte, in each strip.
fn single_strips(tally: &mut Tally, random: &mut Random) -> Result<(), String> {
    for wanted in every_shape(1..=1, random) {
        let count = wanted.places().len();
        for at in 0..count {
            let mut strips = vec![vec![0]; count];
            strips[at][0] = 1;
            tally.compare(Case::fitting(wanted, wanted.bundle(&strips), random), random)?;
        }
    }
    Ok(())
}

/// Each accepted (n, k, A) and each lost node in either edition with random strips, then some with strips at the
/// ceiling.
fn any_strips(tally: &mut Tally, random: &mut Random) -> Result<(), String> {
    let mut all = every_lost_node(random);
    all.extend(every_shape(511..=512, random).into_iter().step_by(8));
    for wanted in all {
        let bundle = random_bundle(&wanted, random);
        tally.compare(Case::fitting(wanted, bundle, random), random)?;
    }
    Ok(())
}

/// Document 01's bundle and one with S = 3, in either edition, with each byte changed to each other value.
fn every_byte_changed(tally: &mut Tally, random: &mut Random) -> Result<(), String> {
    let profile = Profile { n: 9, k: 3, rows: 3, t: 29, s: 3, edition: 1 };
    let other = Wanted { profile, lost: 4, recording: Recording { scenario: 0x0102_0304, run: 0x0506 } };
    for edition in EDITIONS {
        let [sample, other] = [SAMPLE_WANTED, other].map(|wanted| wanted.in_edition(edition));
        for (wanted, bundle) in [(sample, sample.bundle(&sample_strips())), (other, random_bundle(&other, random))] {
            for at in 0..bundle.len() {
                for change in 1..=255 {
                    let mut changed = bundle.clone();
                    changed[at] ^= change;
                    tally.compare(Case::fitting(wanted, changed, random), random)?;
                }
            }
        }
    }
    Ok(())
}

/// Bundles cut short, inside a field or after one, and lengthened, also by a whole field; each with buffers for the
/// column that fit and that do not.
fn other_lengths(tally: &mut Tally, random: &mut Random) -> Result<(), String> {
    for wanted in every_shape(1..=8, random) {
        let bundle = random_bundle(&wanted, random);
        let (length, field, first) = (bundle.len(), wanted.strip_field_length(), wanted.strip_field_start(0));
        let column = wanted.profile.column_length();
        let any = random.between(0, length - 1);
        let mut all: Vec<Vec<u8>> = [0, 1, 3, 9, first - 1, first, any, length - field, length - 1, length]
            .map(|to| bundle[..to].to_vec())
            .to_vec();
        all.push([&bundle[..], &[0]].concat());
        all.push([&bundle[..], &random.bytes(field)].concat());
        all.push([&bundle[..], &bundle[length - field..]].concat());
        all.push([&bundle[..first], &bundle[first + field..]].concat());
        all.push([&[0], &bundle[..]].concat());
        for bundle in all {
            for column_length in [column, column - 1, column + 1, 2 * column, wanted.profile.s, 0] {
                tally.compare(Case::new(wanted, bundle.clone(), column_length, random), random)?;
            }
        }
    }
    Ok(())
}

/// Each field's tag and length changed, and fields parted elsewhere or in another order in a bundle whose total length
/// is right.
fn other_forms(tally: &mut Tally, random: &mut Random) -> Result<(), String> {
    for wanted in every_shape(1..=4, random) {
        let strips = random_strips(&wanted, random);
        let count = 2 + strips.len();
        for index in 0..count {
            let start = match index {
                0 => 0,
                1 => wanted.lost_field_start(),
                _ => wanted.strip_field_start(index - 2),
            };
            for (at, change) in [(0, 1), (0, 2), (0, 3), (0, 0x80), (1, 1), (1, 0x80), (2, 1), (2, 2), (2, 0xFF)] {
                let mut bundle = wanted.bundle(&strips);
                bundle[start + at] ^= change;
                tally.compare(Case::fitting(wanted, bundle, random), random)?;
            }

            let next = (index + 1) % count;
            let mut longer = wanted.fields(&strips);
            let moved = longer[next].content.pop().expect("no field is empty");
            longer[index].content.push(moved);
            let mut exchanged = wanted.fields(&strips);
            exchanged.swap(index, next);
            for fields in [longer, exchanged] {
                tally.compare(Case::fitting(wanted, joined(&fields), random), random)?;
            }
        }
    }
    Ok(())
}

/// Gives a strip of a bundle another place: another node, another row, or both.
pub fn misplace(wanted: &Wanted, bundle: &mut [u8], index: usize, random: &mut Random) {
    let at = wanted.strip_field_start(index) + 3;
    let (node, row) = (random.between(1, 3) as u8, random.between(1, 255) as u8);
    let (other_node, other_row) = random.one_of(&[(node, 0), (0, 1), (row, 0), (0, row), (node, 1)]);
    bundle[at] ^= other_node;
    bundle[at + 1] ^= other_row;
}

/// Gives a strip of a bundle another recording, which differs in one byte of the scenario or of the run.
fn make_stale(wanted: &Wanted, bundle: &mut [u8], index: usize, random: &mut Random) {
    let at = wanted.strip_field_start(index) + 5 + random.between(0, 5);
    let any = random.between(1, 255) as u8;
    bundle[at] ^= random.one_of(&[1, 0x80, any]);
}

/// Exchanges two strips of a bundle with all of their fields.
fn exchange(wanted: &Wanted, bundle: &mut [u8], one: usize, other: usize) {
    let (one, other) = (wanted.strip_field_start(one), wanted.strip_field_start(other));
    for at in 0..wanted.strip_field_length() {
        bundle.swap(one + at, other + at);
    }
}

/// For each accepted (n, k, A) and each two strips, before or after each other or the same: one stale and the other
/// misplaced; both stale; both misplaced; the two exchanged, with one of them or another one stale.
fn other_strips(tally: &mut Tally, random: &mut Random) -> Result<(), String> {
    for wanted in every_shape(1..=3, random) {
        let bundle = random_bundle(&wanted, random);
        let count = wanted.places().len();
        for (one, other) in (0..count).flat_map(|one| (0..count).map(move |other| (one, other))) {
            let mut both = bundle.clone();
            make_stale(&wanted, &mut both, one, random);
            let mut all = vec![both.clone(), both.clone(), bundle.clone(), bundle.clone(), both];
            misplace(&wanted, &mut all[0], other, random);
            make_stale(&wanted, &mut all[1], other, random);
            misplace(&wanted, &mut all[2], one, random);
            misplace(&wanted, &mut all[2], other, random);
            exchange(&wanted, &mut all[3], one, other);
            make_stale(&wanted, &mut all[3], random.between(0, count - 1), random);
            exchange(&wanted, &mut all[4], one, other);
            for bundle in all {
                tally.compare(Case::fitting(wanted, bundle, random), random)?;
            }
        }
    }
    Ok(())
}

/// Puts what is wanted into field 02 of a bundle.
pub fn put_lost_field(wanted: &Wanted, bundle: &mut [u8]) {
    let content = &mut bundle[wanted.lost_field_start() + 3..wanted.strip_field_start(0)];
    content[0] = wanted.lost as u8;
    content[1..].copy_from_slice(&wanted.recording.bytes());
}

/// Runs other than this recording's, also such as a wrong comparison could take for it: one bit changed, the two bytes
/// exchanged, either half of the scenario.
pub fn other_runs(recording: Recording, random: &mut Random) -> Vec<u16> {
    let Recording { scenario, run } = recording;
    let any = random.number() as u16;
    let mut runs: Vec<u16> = (0..16).map(|bit| run ^ 1 << bit).collect();
    runs.extend([run.swap_bytes(), scenario as u16, (scenario >> 16) as u16, !run, any]);
    runs.extend([run.wrapping_add(1), run.wrapping_sub(1)]);
    runs.extend(EDGES_OF_RUNS);
    runs.retain(|&other| other != run);
    runs
}

/// Recordings other than this one: in the scenario alone, in the run alone, in both; also with the same six bytes, but
/// the run's before the scenario's.
fn other_recordings(recording: Recording, random: &mut Random) -> Vec<Recording> {
    let Recording { scenario, run } = recording;
    let any = random.number() as u32;
    let runs = other_runs(recording, random);
    let scenarios = [scenario ^ 1, scenario ^ 1 << 31, scenario ^ 1 << 8, scenario.swap_bytes(), !scenario, any];
    let run_first = Recording { scenario: u32::from(run) << 16 | scenario >> 16, run: scenario as u16 };

    let mut all = scenarios.map(|scenario| Recording { scenario, run }).to_vec();
    all.extend(scenarios.map(|scenario| Recording { scenario, run: random.one_of(&runs) }));
    all.extend(runs.iter().map(|&run| Recording { scenario, run }));
    all.push(run_first);
    all.retain(|&other| other != recording);
    all
}

/// A bundle cut for a node and wanted for another, or for another recording: also with field 02 as it is wanted, so
/// that the strips alone differ.
fn other_nodes_and_recordings(tally: &mut Tally, random: &mut Random) -> Result<(), String> {
    for cut in every_lost_node(random) {
        let bundle = random_bundle(&cut, random);
        let nodes = (0..cut.profile.n).filter(|&lost| lost != cut.lost).map(|lost| Wanted { lost, ..cut });
        let recordings = other_recordings(cut.recording, random).into_iter();
        for wanted in nodes.chain(recordings.map(|recording| Wanted { recording, ..cut })) {
            let mut patched = bundle.clone();
            put_lost_field(&wanted, &mut patched);
            for bundle in [bundle.clone(), patched] {
                tally.compare(Case::fitting(wanted, bundle, random), random)?;
            }
        }
    }
    Ok(())
}

/// A bundle cut for one profile and wanted for another: t and S alone changed, then each two accepted (n, k, A), also
/// with field 01 as it is wanted where the length is the same, so that the places alone can differ.
fn other_profiles(tally: &mut Tally, random: &mut Random) -> Result<(), String> {
    for cut in every_shape(1..=4, random) {
        let bundle = random_bundle(&cut, random);
        let (t, s) = (cut.profile.t, cut.profile.s);
        let other_t = if t == 255 { 2 } else { t + 1 };
        for (t, s) in [(other_t, s), (t, s + 1), (t, s + 256), (other_t, s + 1)] {
            let wanted = Wanted { profile: Profile { t, s, ..cut.profile }, ..cut };
            tally.compare(Case::fitting(wanted, bundle.clone(), random), random)?;
        }
        for (n, k, rows) in code::all_accepted() {
            let wanted = Wanted { profile: Profile { n, k, rows, ..cut.profile }, lost: cut.lost % n, ..cut };
            if wanted == cut {
                continue;
            }
            tally.compare(Case::fitting(wanted, bundle.clone(), random), random)?;
            if wanted.bundle_length() == bundle.len() {
                let mut patched = bundle.clone();
                patched[3..6].copy_from_slice(&[n as u8, k as u8, rows as u8]);
                tally.compare(Case::fitting(wanted, patched.clone(), random), random)?;
                patched[wanted.lost_field_start() + 3] = wanted.lost as u8;
                tally.compare(Case::fitting(wanted, patched, random), random)?;
            }
        }
    }
    Ok(())
}

/// Bundles of any size with some bytes changed, most of them outside the strips.
fn some_bytes_changed(tally: &mut Tally, random: &mut Random) -> Result<(), String> {
    for round in 0..20 {
        let longest = if round == 0 { 512 } else { 40 };
        for wanted in every_shape(1..=longest, random) {
            let mut bundle = random_bundle(&wanted, random);
            for _ in 0..random.between(1, 3) {
                let field = wanted.strip_field_start(random.between(0, wanted.places().len() - 1));
                let first = wanted.strip_field_start(0);
                let (in_head, in_field) = (random.between(0, first - 1), field + random.between(0, 10));
                let anywhere = random.between(0, bundle.len() - 1);
                let at = random.one_of(&[in_head, in_field, in_field, in_field, in_field, anywhere]);
                bundle[at] ^= random.between(1, 255) as u8;
            }
            tally.compare(Case::fitting(wanted, bundle, random), random)?;
        }
    }
    Ok(())
}

/// A bundle in order for these numbers, or for what a narrower type leaves of them, with buffers for the column that
/// fit and that do not; then other bytes, and a bundle of the other edition.
fn every_length(wanted: Wanted, tally: &mut Tally, random: &mut Random) -> Result<(), String> {
    let small = small_like(&wanted);
    let bundle = random_bundle(&small, random);
    let column = small.profile.column_length();
    let any = random.bytes(bundle.len());
    let longer = [&bundle[..], &[0]].concat();
    let other_edition = random_bundle(&small.in_other_edition(), random);
    for (bundle, column_length) in [
        (bundle.clone(), column),
        (bundle.clone(), column.saturating_sub(1)),
        (bundle, column + 1),
        (any.clone(), column),
        (any, column + 1),
        (longer, column),
        (other_edition, column),
        (Vec::new(), column),
        (Vec::new(), 0),
    ] {
        tally.compare(Case::new(wanted, bundle, column_length, random), random)?;
    }
    Ok(())
}

/// All small numbers, and every mixture of refusals 1, 2, 3, 13, 4 and 5, also of none, with bundles that are in order
/// and others.
fn every_number(tally: &mut Tally, random: &mut Random) -> Result<(), String> {
    for (profile, lost) in small_and_refused_numbers(random) {
        every_length(Wanted { profile, lost, recording: random_recording(random) }, tally, random)?;
    }
    Ok(())
}

/// Several reasons to refuse at once, of all ten, each present or not.
fn mixed_calls(tally: &mut Tally, random: &mut Random) -> Result<(), String> {
    let accepted = code::all_accepted();
    for _ in 0..100_000 {
        let (n, k, rows) = random.one_of(&accepted);
        let profile = Profile { s: random.between(1, 4), ..random_profile(n, k, rows, random) };
        let cut = Wanted { profile, lost: random.between(0, n - 1), recording: random_recording(random) };
        let mut wanted = cut;
        let mut bundle = random_bundle(&cut, random);
        let mut column_length = profile.column_length();
        let strip = random.between(0, cut.places().len() - 1);
        let second = cut.lost_field_start();
        for _ in 0..random.between(1, 3) {
            let (in_first, in_second) = (random.between(3, second - 1), second + random.between(3, 9));
            match random.between(0, 8) {
                0 => replace_number(&profile, &mut wanted.profile, &mut wanted.lost, random),
                1 => column_length = random.one_of(&[profile.column_length() - 1, profile.column_length() + 1]),
                2 => bundle[random.one_of(&[0, second]) + random.between(0, 2)] ^= 1,
                3 => bundle[cut.strip_field_start(strip) + random.between(0, 2)] ^= 1,
                4 => bundle[random.one_of(&[in_first, in_second])] ^= 1,
                5 | 6 => misplace(&cut, &mut bundle, random.between(strip, cut.places().len() - 1), random),
                _ => make_stale(&cut, &mut bundle, random.between(0, strip), random),
            }
        }
        tally.compare(Case::new(wanted, bundle, column_length, random), random)?;
    }
    Ok(())
}
