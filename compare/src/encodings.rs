//! The kinds about encoding: samples, row codes, accepted and refused calls.

use crate::calls::{far_numbers, profiles_in_every_order, random_profile, Call, Tally, HUGE};
use crate::code::{self, Profile, Refusal, EDITIONS};
use crate::library::{self, Answer, Lent};
use crate::random::Random;
use crate::{hex, Count, Outcome};

/// The strip lengths that every accepted (n, k, A) is tried with, the short ones first so that the first
/// disagreement is a short line.
const STRIP_LENGTHS: [usize; 8] = [1, 2, 3, 7, 16, 64, 511, 512];

/// One call: the profile, the data and what the array holds before.
struct Case {
    profile: Profile,
    data: Vec<u8>,
    array: Vec<u8>,
}

impl Case {
    /// Random bytes of these lengths.
    fn new(profile: Profile, data_length: usize, array_length: usize, random: &mut Random) -> Case {
        Case { profile, data: random.bytes(data_length), array: random.bytes(array_length) }
    }

    /// Random bytes of the lengths that fit an accepted profile.
    fn fitting(profile: Profile, random: &mut Random) -> Case {
        Case::new(profile, profile.data_length(), profile.array_length(), random)
    }

    fn disagreement(&self, what: String) -> String {
        let (profile, data_length, array_length) = (self.profile, self.data.len(), self.array.len());
        let (data, array) = (hex(&self.data), hex(&self.array));
        format!("encode {profile} data_len={data_length} data={data} array_len={array_length} array={array}: {what}")
    }

    /// Calls the library; compares the answer and every byte that must not change with `expected`. Gives the
    /// array as the call leaves it.
    fn call(&self, expected: Option<Refusal>, random: &mut Random) -> Result<Vec<u8>, String> {
        let mut data = Lent::new(&self.data, random);
        let mut array = Lent::new(&self.array, random);
        let answer = library::encode(&self.profile, &mut data, &mut array);
        let due = Answer::due(expected.map_or(Ok(0), Err));
        if answer != due {
            return Err(self.disagreement(format!("the library answers {answer}, expected {due}")));
        }
        if let Some(change) = data.change() {
            return Err(self.disagreement(format!("the data are changed, {change}")));
        }
        let array_change = if expected.is_some() { array.change() } else { array.change_around() };
        if let Some(change) = array_change {
            return Err(self.disagreement(format!("the array is changed where it must stay, {change}")));
        }
        Ok(array.bytes().to_vec())
    }

    fn same_array(&self, given: &[u8], expected: &[u8]) -> Result<(), String> {
        let Some(at) = (0..expected.len()).find(|&at| given[at] != expected[at]) else {
            return Ok(());
        };
        let place = self.profile.place_of_byte(at);
        Err(self.disagreement(format!(
            "node {} row {} offset {} is {:02x}, expected {:02x}; the library's array is {}",
            place.node,
            place.row,
            at % self.profile.s,
            given[at],
            expected[at],
            hex(given)
        )))
    }
}

impl Call for Case {
    /// The whole comparison: answer, array, guard bytes.
    fn compare(&self, random: &mut Random) -> Result<Option<Refusal>, String> {
        match code::encode(&self.profile, &self.data, self.array.len()) {
            Err(refusal) => {
                self.call(Some(refusal), random)?;
                Ok(Some(refusal))
            }
            Ok(expected) => {
                let given = self.call(None, random)?;
                self.same_array(&given, &expected)?;
                Ok(None)
            }
        }
    }
}

/// Document 01's M4 and the encoding of M9, as they are printed there, in either edition.
pub fn samples(random: &mut Random) -> Outcome {
    for edition in EDITIONS {
        let profile = Profile { n: 4, k: 2, rows: 2, t: 2, s: 1, edition };
        let m4 = Case { profile, data: vec![1, 0, 2, 4], array: vec![0xEE; 8] };
        let given = m4.call(None, random)?;
        m4.same_array(&given, &[0x01, 0x04, 0x02, 0x04, 0x07, 0x00, 0x0C, 0x0C])?;

        let m9 = Case { profile: Profile { t: 5, ..profile }, data: vec![0, 5, 1, 6], array: vec![0xEE; 8] };
        let given = m9.call(None, random)?;
        if given[0..2] != [0, 0] || given[6..8] != [0, 0] {
            return Err(m9.disagreement(format!("nodes 0 and 3 are not zero in {}", hex(&given))));
        }
    }
    Ok(vec![Count::of("samples of encoding", 4)])
}

/// The library's arrays with the coupling taken off: the data are the first k nodes' base symbols, and each
/// row at each byte offset is the list of values of a polynomial of degree below k.
pub fn row_codes(random: &mut Random) -> Outcome {
    let mut cases = 0;
    for (n, k, rows) in code::all_accepted() {
        for s in [1, random.between(2, 24)] {
            let profile = Profile { s, ..random_profile(n, k, rows, random) };
            let case = Case::fitting(profile, random);
            let stored = case.call(None, random)?;
            let base = code::decouple(&profile, &stored);
            let free = base[..profile.data_length()].to_vec();
            if free != case.data {
                return Err(case.disagreement(format!("the base symbols of the data nodes are {}", hex(&free))));
            }
            cases += check_rows(&case, &base, random)?;
        }
    }
    Ok(vec![Count::of("row codes", cases)])
}

/// Compares every row at every byte offset with Lagrange's formula over several sets of k+1 nodes.
fn check_rows(case: &Case, base: &[u8], random: &mut Random) -> Result<usize, String> {
    let profile = &case.profile;
    let offsets = (0..profile.rows).flat_map(|row| (0..profile.s).map(move |offset| (row, offset)));
    let base_rows: Vec<Vec<u8>> = offsets.map(|(row, offset)| profile.base_row(base, row, offset)).collect();
    for nodes in node_sets(profile, random) {
        let points: Vec<u8> = nodes.iter().map(|&node| code::point(node)).collect();
        let weights = code::lagrange(&points[..profile.k], points[profile.k]);
        for base_row in &base_rows {
            let values: Vec<u8> = nodes.iter().map(|&node| base_row[node]).collect();
            let expected = code::weighted(&values[..profile.k], &weights);
            if values[profile.k] != expected {
                let row = hex(base_row);
                let what = format!("base row {row} does not fit on nodes {nodes:?}: the last is not {expected:02x}");
                return Err(case.disagreement(what));
            }
        }
    }
    Ok(base_rows.len())
}

/// Sets of k+1 nodes: the data nodes with each other node, which decides the row code, then all sets where
/// n is small and strips are single bytes, else some at random.
fn node_sets(profile: &Profile, random: &mut Random) -> Vec<Vec<usize>> {
    let (n, k) = (profile.n, profile.k);
    let mut sets: Vec<Vec<usize>> = (k..n).map(|node| (0..k).chain([node]).collect()).collect();
    if n <= 12 && profile.s == 1 {
        let members = |set: u32| (0..n).filter(|&node| set >> node & 1 == 1).collect::<Vec<usize>>();
        sets.extend((0..1u32 << n).filter(|set| set.count_ones() as usize == k + 1).map(members));
    } else {
        sets.extend((0..12).map(|_| random.subset(k + 1, n)));
    }
    sets
}

/// Whole calls, each counted as accepted or refused.
pub fn encodings(random: &mut Random) -> Outcome {
    let mut tally = Tally::default();
    single_bytes(&mut tally, random)?;
    every_profile(&mut tally, random)?;
    every_small_number(&mut tally, random)?;
    refused_in_every_order(&mut tally, random)?;
    one_number_far(&mut tally, random)?;
    mixed_calls(&mut tally, random)?;
    tally.counts("encodings accepted", "encodings refused", &[1, 2, 3, 13, 5])
}

/// Each accepted (n, k, A) with data that are zero but for one byte, at each position.
fn single_bytes(tally: &mut Tally, random: &mut Random) -> Result<(), String> {
    for (n, k, rows) in code::all_accepted() {
        let profile = Profile { s: 1, ..random_profile(n, k, rows, random) };
        for at in 0..profile.data_length() {
            let mut case = Case::fitting(profile, random);
            case.data.fill(0);
            case.data[at] = 1;
            tally.compare(case, random)?;
        }
    }
    Ok(())
}

/// Each accepted (n, k, A) with random data, each of the strip lengths and two others, in any edition; then with all
/// lengths of the buffers.
fn every_profile(tally: &mut Tally, random: &mut Random) -> Result<(), String> {
    for (n, k, rows) in code::all_accepted() {
        let others = [random.between(1, 512), random.between(1, 512)];
        for &s in STRIP_LENGTHS.iter().chain(&others) {
            let case = Case::fitting(Profile { s, ..random_profile(n, k, rows, random) }, random);
            tally.compare(case, random)?;
        }
        let profile = Profile { s: random.between(1, 4), ..random_profile(n, k, rows, random) };
        every_length(&profile, tally, random)?;
    }
    Ok(())
}

/// All small n, k and A; then all small t, all small S and all small editions, of accepted n, k and A. The lengths fit.
fn every_small_number(tally: &mut Tally, random: &mut Random) -> Result<(), String> {
    let mut profiles = Vec::new();
    for n in 0..=30 {
        for k in 0..=30 {
            profiles.extend((0..=6).map(|rows| Profile { s: 1, ..random_profile(n, k, rows, random) }));
        }
    }
    for (n, k, rows) in [(4, 2, 2), (6, 3, 3), (8, 4, 4)] {
        for edition in EDITIONS {
            profiles.extend((0..=600).map(|t| Profile { n, k, rows, t, s: 2, edition }));
            profiles.extend((0..=1100).map(|s| Profile { n, k, rows, t: 3, s, edition }));
        }
        profiles.extend((0..=600).map(|edition| Profile { n, k, rows, t: 3, s: 2, edition }));
    }
    for profile in profiles {
        let case = Case::fitting(profile, random);
        tally.compare(case, random)?;
    }
    Ok(())
}

/// Every mixture of refusals 1, 2, 3, 13 and 5, also of none, with each way to come to each.
fn refused_in_every_order(tally: &mut Tally, random: &mut Random) -> Result<(), String> {
    let mut constants = vec![2, 255, 0, 1, 256, 257, 258];
    constants.extend(HUGE);
    let mut strips = vec![1, 2, 0, 513, 514, 1024, 65537];
    strips.extend(HUGE);
    let mut profiles = profiles_in_every_order(&constants, &strips, random);
    for edition in [1, 2, 3] {
        profiles.extend([24, 23].map(|n| Profile { n, k: 20, rows: 4, t: 2, s: 512, edition }));
    }
    for profile in profiles {
        every_length(&profile, tally, random)?;
    }
    Ok(())
}

/// The lengths to lend with these numbers: those that fit, and those one off or exchanged. Numbers too large
/// to fit anything get what their products leave in a machine word, or the lengths of (4,2,2) and S = 1.
fn every_length(profile: &Profile, tally: &mut Tally, random: &mut Random) -> Result<(), String> {
    let bytes_of = |nodes: usize, otherwise: usize| {
        let length = nodes.wrapping_mul(profile.rows).wrapping_mul(profile.s);
        if length <= 50_000 {
            length
        } else {
            otherwise
        }
    };
    let (data, array) = (bytes_of(profile.k, 4), bytes_of(profile.n, 8));
    let (less_data, less_array) = (data.saturating_sub(1), array.saturating_sub(1));
    let lengths = [
        (data, array),
        (less_data, array),
        (data + 1, array),
        (data, less_array),
        (data, array + 1),
        (less_data, array + 1),
        (data + 1, less_array),
        (less_data, less_array),
        (data + 1, array + 1),
        (array, data),
        (array, array),
        (data, data),
        (0, array),
        (data, 0),
        (0, 0),
    ];
    for (data_length, array_length) in lengths {
        tally.compare(Case::new(*profile, data_length, array_length, random), random)?;
    }
    Ok(())
}

/// One number far out of range, and lengths that fit the numbers that it was put among.
fn one_number_far(tally: &mut Tally, random: &mut Random) -> Result<(), String> {
    for (accepted, (profile, _)) in far_numbers(random) {
        tally.compare(Case::new(profile, accepted.data_length(), accepted.array_length(), random), random)?;
    }
    Ok(())
}

/// Accepted numbers, one of them perhaps replaced by one near an edge, and lengths that fit or are one off.
fn mixed_calls(tally: &mut Tally, random: &mut Random) -> Result<(), String> {
    let accepted = code::all_accepted();
    for _ in 0..20_000 {
        let (mut n, mut k, mut rows) = random.one_of(&accepted);
        let mut t = random.between(2, 255);
        let mut s = random.between(1, 9);
        let mut edition = random.one_of(&EDITIONS);
        match random.between(0, 10) {
            0 => n = random.between(0, 30),
            1 => k = random.between(0, 30),
            2 => rows = random.between(0, 6),
            3 => t = random.one_of(&[0, 1, 2, 255, 256]),
            4 => s = random.one_of(&[0, 1, 512, 513]),
            5 => edition = random.one_of(&[0, 1, 2, 3, 257, 258]),
            _ => {}
        }
        let (data, array) = (k * rows * s, n * rows * s);
        let data_length = random.one_of(&[data, data, data, data + 1, data.saturating_sub(1)]);
        let array_length = random.one_of(&[array, array, array, array + 1, array.saturating_sub(1)]);
        let case = Case::new(Profile { n, k, rows, t, s, edition }, data_length, array_length, random);
        tally.compare(case, random)?;
    }
    Ok(())
}
