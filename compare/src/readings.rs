//! The kinds about reading back: samples, data that come back, accepted and refused calls.

use crate::calls::{
    random_profile, refused_editions, refused_nodes_and_rows, replace_number, small_and_refused_numbers, small_like,
    Call, Tally, HUGE, OFTEN,
};
use crate::code::{self, Profile, Refusal, EDITIONS};
use crate::download::{Recording, Wanted};
use crate::generator::{self, random_list, Generator, Sets};
use crate::library::{self, Answer, Lent};
use crate::random::Random;
use crate::{hex, Count, Outcome};

/// One call: the profile, the node list, the columns and what the buffer for the data holds before.
struct Case {
    profile: Profile,
    nodes: Vec<u8>,
    columns: Vec<u8>,
    data: Vec<u8>,
}

impl Case {
    fn new(profile: Profile, nodes: &[u8], columns: Vec<u8>, data_length: usize, random: &mut Random) -> Case {
        Case { profile, nodes: nodes.to_vec(), columns, data: random.bytes(data_length) }
    }

    /// With a buffer for the data that fits accepted numbers.
    fn fitting(profile: Profile, nodes: &[u8], columns: Vec<u8>, random: &mut Random) -> Case {
        Case::new(profile, nodes, columns, profile.data_length(), random)
    }

    /// With random bytes of these two lengths for columns and data.
    fn of_lengths(profile: Profile, nodes: &[u8], lengths: (usize, usize), random: &mut Random) -> Case {
        let columns = random.bytes(lengths.0);
        Case::new(profile, nodes, columns, lengths.1, random)
    }

    fn disagreement(&self, what: String) -> String {
        let profile = self.profile;
        let (nodes_length, columns_length, data_length) = (self.nodes.len(), self.columns.len(), self.data.len());
        let (nodes, columns, data) = (hex(&self.nodes), hex(&self.columns), hex(&self.data));
        format!(
            "read_back {profile} nodes_len={nodes_length} nodes={nodes} \
             columns_len={columns_length} columns={columns} data_len={data_length} data={data}: {what}"
        )
    }

    /// Calls the library; compares the answer and every byte that must not change with `expected`. Gives the data as
    /// the call leaves them.
    fn call(&self, expected: Option<Refusal>, random: &mut Random) -> Result<Vec<u8>, String> {
        let mut nodes = Lent::new(&self.nodes, random);
        let mut columns = Lent::new(&self.columns, random);
        let mut data = Lent::new(&self.data, random);
        let answer = library::read_back(&self.profile, &mut nodes, &mut columns, &mut data);
        let due = Answer::due(expected.map_or(Ok(0), Err));
        if answer != due {
            return Err(self.disagreement(format!("the library answers {answer}, expected {due}")));
        }
        for (lent, name) in [(nodes, "node list is"), (columns, "columns are")] {
            if let Some(change) = lent.change() {
                return Err(self.disagreement(format!("the {name} changed, {change}")));
            }
        }
        let data_change = if expected.is_some() { data.change() } else { data.change_around() };
        if let Some(change) = data_change {
            return Err(self.disagreement(format!("the data's buffer is changed where it must stay, {change}")));
        }
        Ok(data.bytes().to_vec())
    }

    fn same_data(&self, given: &[u8], expected: &[u8]) -> Result<(), String> {
        if given == expected {
            return Ok(());
        }
        Err(self.disagreement(format!("the library's data are {}, expected {}", hex(given), hex(expected))))
    }

    /// The data that the library gives have the columns that were lent.
    fn same_columns(&self, given: &[u8]) -> Result<(), String> {
        let columns = generator::columns_of(&self.profile, given, &self.nodes);
        if columns == self.columns {
            return Ok(());
        }
        let what = format!("the library's data are {} and have the columns {}", hex(given), hex(&columns));
        Err(self.disagreement(what))
    }
}

impl Call for Case {
    fn compare(&self, random: &mut Random) -> Result<Option<Refusal>, String> {
        match generator::read_back(&self.profile, &self.nodes, &self.columns, self.data.len(), random) {
            Err(refusal) => {
                self.call(Some(refusal), random)?;
                Ok(Some(refusal))
            }
            Ok(expected) => {
                let given = self.call(None, random)?;
                self.same_columns(&given)?;
                self.same_data(&given, &expected)?;
                Ok(None)
            }
        }
    }
}

/// Document 01's M10, as it is printed there, and M4's data read back from each two columns of its array, since no set
/// fails with t = 2 (M12), in either edition. M9 is among the samples of encoding.
pub fn samples(random: &mut Random) -> Outcome {
    let array = [0x01, 0x04, 0x02, 0x04, 0x07, 0x00, 0x0C, 0x0C];
    for edition in EDITIONS {
        let m4 = Profile { n: 4, k: 2, rows: 2, t: 2, s: 1, edition };
        let m10 = Profile { t: 5, ..m4 };
        Case { profile: m10, nodes: vec![0, 3], columns: vec![0; 4], data: vec![0xEE; 4] }
            .call(Some(Refusal::Ambiguous), random)?;

        for nodes in [[0, 1], [0, 2], [0, 3], [1, 2], [1, 3], [2, 3]] {
            let columns = nodes.map(|node| m4.column_of(&array, node.into())).concat();
            let case = Case { profile: m4, nodes: nodes.to_vec(), columns, data: vec![0xEE; 4] };
            let given = case.call(None, random)?;
            case.same_data(&given, &[0x01, 0x00, 0x02, 0x04])?;
        }
    }
    Ok(vec![Count::of("samples of readings", 14)])
}

/// Node lists of accepted numbers: the first k, the last k and some at random.
fn node_lists(n: usize, k: usize, random: &mut Random) -> Vec<Vec<u8>> {
    let mut lists: Vec<Vec<u8>> = [0..k, n - k..n].map(|nodes| nodes.map(|node| node as u8).collect()).to_vec();
    lists.extend((0..4).map(|_| random_list(n, k, random)));
    lists
}

/// Each accepted (n, k, A) with several node lists, each with a t of its own: short strips, and of one list strips of
/// any length and at the ceiling.
fn every_shape(random: &mut Random) -> Vec<(Profile, Vec<u8>)> {
    let mut all = Vec::new();
    for (n, k, rows) in code::all_accepted() {
        for nodes in node_lists(n, k, random) {
            all.push((Profile { s: random.between(1, 8), ..random_profile(n, k, rows, random) }, nodes));
        }
        for s in [random.between(9, 512), random.between(511, 512)] {
            all.push((Profile { s, ..random_profile(n, k, rows, random) }, random_list(n, k, random)));
        }
    }
    all
}

/// Columns of encoded arrays: the data that were encoded come back, or it is seen that they are not the only ones.
pub fn recovered(random: &mut Random) -> Outcome {
    let mut cases = 0;
    let mut ambiguous = 0;
    for (profile, nodes) in every_shape(random) {
        let data = random.bytes(profile.data_length());
        let columns = generator::columns_of(&profile, &data, &nodes);
        let case = Case::fitting(profile, &nodes, columns, random);
        if Generator::of(&profile).fails(&nodes) {
            case.call(Some(Refusal::Ambiguous), random)?;
            ambiguous += 1;
        } else {
            let given = case.call(None, random)?;
            case.same_data(&given, &data)?;
            cases += 1;
        }
    }
    Ok(vec![Count::of("data read back", cases), Count::of("data not told apart", ambiguous)])
}

/// Whole calls, each counted as accepted or refused.
pub fn readings(random: &mut Random) -> Outcome {
    let ambiguous = ambiguous_readings(random);
    let mut shapes: Vec<_> = ambiguous.iter().map(|(profile, _)| (profile.n, profile.k, profile.rows)).collect();
    shapes.dedup();
    if shapes.len() < OFTEN {
        return Err(format!("readings refused: number 10 was met with {} (n, k, A), not {OFTEN}", shapes.len()));
    }

    let mut tally = Tally::default();
    single_bytes(&mut tally, random)?;
    any_columns(&mut tally, random)?;
    every_set(&mut tally, random)?;
    other_columns(&ambiguous, &mut tally, random)?;
    other_lists(&mut tally, random)?;
    other_lengths(&mut tally, random)?;
    every_mixture(&ambiguous, &mut tally, random)?;
    every_number(&mut tally, random)?;
    mixed_calls(&ambiguous, &mut tally, random)?;
    tally.counts("readings accepted", "readings refused", &[1, 2, 3, 13, 4, 5, 10])
}

/// Profiles with S = 1 and node lists on which two different data give equal columns: all with n up to 8, and of each
/// other accepted (n, k, A) one, if it is found soon.
fn ambiguous_readings(random: &mut Random) -> Vec<(Profile, Vec<u8>)> {
    let mut found = Vec::new();
    for (n, k, rows) in code::all_accepted() {
        let profile = Profile { t: 2, s: 1, ..random_profile(n, k, rows, random) };
        if n > 8 {
            found.extend(generator::find_failing(&profile, random));
            continue;
        }
        let mut sets = Sets::of(&profile);
        for t in 2..=255 {
            sets.turn_to(&Profile { t, ..profile });
            let edition = random.one_of(&EDITIONS);
            let failing = sets.failing().into_iter();
            found.extend(failing.map(|position| (Profile { t, edition, ..profile }, sets.at(position))));
        }
    }
    found
}

/// Some accepted (n, k, A) with columns that are zero but for one byte, at each position.
fn single_bytes(tally: &mut Tally, random: &mut Random) -> Result<(), String> {
    for (n, k, rows) in code::all_accepted().into_iter().filter(|&(_, k, rows)| k * rows <= 24) {
        let profile = Profile { s: 1, ..random_profile(n, k, rows, random) };
        let nodes = random_list(n, k, random);
        for at in 0..profile.data_length() {
            let mut columns = vec![0; profile.data_length()];
            columns[at] = 1;
            tally.compare(Case::fitting(profile, &nodes, columns, random), random)?;
        }
    }
    Ok(())
}

/// Each accepted (n, k, A) with several node lists and random bytes for columns: where no two data give equal columns,
/// any columns are those of just one data.
fn any_columns(tally: &mut Tally, random: &mut Random) -> Result<(), String> {
    for (profile, nodes) in every_shape(random) {
        let columns = random.bytes(profile.data_length());
        tally.compare(Case::fitting(profile, &nodes, columns, random), random)?;
    }
    Ok(())
}

/// Each set of k nodes with each t for n up to 6, with some t for n = 8.
fn every_set(tally: &mut Tally, random: &mut Random) -> Result<(), String> {
    for (n, k, rows) in code::all_accepted().into_iter().filter(|&(n, _, _)| n <= 8) {
        let sets = Sets::of(&Profile { n, k, rows, t: 2, s: 1, edition: 1 });
        for t in (2..=255).filter(|t| n <= 6 || t % 16 == 0) {
            let profile = Profile { t, s: 1, ..random_profile(n, k, rows, random) };
            for position in 0..sets.count() {
                let columns = random.bytes(profile.data_length());
                tally.compare(Case::fitting(profile, &sets.at(position), columns, random), random)?;
            }
        }
    }
    Ok(())
}

/// "whatever bytes the lent columns hold": each ambiguous reading, then the same nodes with the next t and other nodes
/// with the same t, with columns of zeros, of encoded data, and others.
fn other_columns(ambiguous: &[(Profile, Vec<u8>)], tally: &mut Tally, random: &mut Random) -> Result<(), String> {
    for (profile, nodes) in ambiguous {
        let Profile { n, k, t, .. } = *profile;
        let s = random.between(1, 5);
        let other_t = if t == 255 { 2 } else { t + 1 };
        let other_nodes = random_list(n, k, random);
        for (t, s, nodes) in [(t, 1, nodes), (t, s, nodes), (other_t, s, nodes), (t, s, &other_nodes)] {
            let profile = Profile { t, s, ..*profile };
            let length = profile.data_length();
            let data = random.bytes(length);
            let mut one = vec![0; length];
            one[random.between(0, length - 1)] = random.between(1, 255) as u8;
            let encoded = generator::columns_of(&profile, &data, nodes);
            for columns in [vec![0; length], encoded, one, vec![0xFF; length], random.bytes(length)] {
                tally.compare(Case::fitting(profile, nodes, columns, random), random)?;
            }
        }
    }
    for (profile, nodes) in ambiguous.iter().step_by(8) {
        let profile = Profile { s: random.between(500, 512), ..*profile };
        let columns = random.bytes(profile.data_length());
        tally.compare(Case::fitting(profile, nodes, columns, random), random)?;
    }
    Ok(())
}

/// Lists that are not k strictly rising numbers below n, made of one that is: too short, too long, empty, not rising,
/// with equal neighbours, with numbers that are n or more.
fn faulty_lists(n: usize, nodes: &[u8], random: &mut Random) -> Vec<Vec<u8>> {
    let k = nodes.len();
    let past = n as u8;
    let any = random.between(n, 255) as u8;
    let mut lists = vec![
        Vec::new(),
        nodes[1..].to_vec(),
        nodes[..k - 1].to_vec(),
        random_list(n, k + 1, random),
        (0..past).collect(),
        [nodes, &[0]].concat(),
        [nodes, &[past]].concat(),
        [nodes, nodes].concat(),
        [nodes, &random.bytes(256)].concat(),
        [nodes, &vec![0; 256]].concat(),
    ];
    let mut replaced = |at: usize, number: u8| {
        let mut list = nodes.to_vec();
        list[at] = number;
        lists.push(list);
    };
    for number in [past, past + 1, any, 0x80, 0xFF] {
        replaced(k - 1, number);
        replaced(random.between(0, k - 1), number);
    }
    for at in 1..k {
        replaced(at, nodes[at - 1]);
        replaced(at - 1, nodes[at]);
    }
    if k > 1 {
        lists.push(nodes.iter().rev().copied().collect());
        lists.extend((1..k).map(|at| {
            let mut list = nodes.to_vec();
            list.swap(at - 1, at);
            list
        }));
    }
    lists
}

/// "node list not k strictly rising numbers below n": each accepted (n, k, A) with each of those lists, with columns
/// and data of the length that fits, and of others. A length that fits the list is also tried.
fn other_lists(tally: &mut Tally, random: &mut Random) -> Result<(), String> {
    for (n, k, rows) in code::all_accepted() {
        let profile = Profile { s: random.between(1, 3), ..random_profile(n, k, rows, random) };
        let length = profile.data_length();
        let nodes = random_list(n, k, random);
        for list in faulty_lists(n, &nodes, random) {
            let as_listed = list.len() * profile.column_length();
            for lengths in [(length, length), (as_listed, length), (as_listed, as_listed), (length - 1, length + 1)] {
                tally.compare(Case::of_lengths(profile, &list, lengths, random), random)?;
            }
        }
    }
    Ok(())
}

/// The lengths of columns and data to lend with these accepted or small numbers: those that fit, and those one off,
/// of an array, of one column, of one strip, cut down by a narrower type, or 0.
fn lengths_for(profile: &Profile) -> Vec<(usize, usize)> {
    let length = profile.data_length();
    let less = length.saturating_sub(1);
    let others = [length + 1, less, profile.array_length(), profile.column_length(), profile.s, length + 256, 0];
    let mut lengths = vec![(length, length), (less, length + 1), (length + 1, less)];
    for other in others.into_iter().filter(|&other| other != length) {
        lengths.extend([(other, length), (length, other), (other, other)]);
    }
    lengths
}

/// Each accepted (n, k, A) with all of these lengths; some also 65536 bytes too long.
fn other_lengths(tally: &mut Tally, random: &mut Random) -> Result<(), String> {
    for (index, (n, k, rows)) in code::all_accepted().into_iter().enumerate() {
        let profile = Profile { s: random.between(1, 8), ..random_profile(n, k, rows, random) };
        let nodes = random_list(n, k, random);
        let mut all = lengths_for(&profile);
        if index % 16 == 0 {
            let (length, longer) = (profile.data_length(), profile.data_length() + (1 << 16));
            all.extend([(longer, length), (length, longer), (longer, longer)]);
        }
        for lengths in all {
            tally.compare(Case::of_lengths(profile, &nodes, lengths, random), random)?;
        }
    }
    Ok(())
}

/// Every mixture of the reasons for 1, 2, 3, 13, 4 and 5, each present or not, on ambiguous readings and on others.
fn every_mixture(ambiguous: &[(Profile, Vec<u8>)], tally: &mut Tally, random: &mut Random) -> Result<(), String> {
    let shapes = refused_nodes_and_rows();
    let editions = refused_editions();
    let mut constants = vec![0, 1, 256, 257, 258];
    let mut strips = vec![0, 513, 514, 1024];
    constants.extend(HUGE);
    strips.extend(HUGE);
    for (profile, nodes) in ambiguous {
        let good = Profile { s: random.between(1, 3), ..*profile };
        let lists = faulty_lists(good.n, nodes, random);
        let lengths = lengths_for(&good);
        for mixture in 0..64 {
            let with = |bit: u32| mixture >> bit & 1 == 1;
            let mut given = good;
            if with(0) {
                (given.n, given.k, given.rows) = random.one_of(&shapes);
            }
            if with(1) {
                let any = random.one_of(&constants);
                given.t = random.one_of(&[good.t + 256, any, any]);
            }
            if with(2) {
                let any = random.one_of(&strips);
                given.s = random.one_of(&[good.s + 512, good.s + (1 << 16), any, any]);
            }
            if with(3) {
                given.edition = random.one_of(&editions);
            }
            let list = if with(4) { &lists[random.between(0, lists.len() - 1)] } else { nodes };
            let lengths = if with(5) { random.one_of(&lengths[1..]) } else { lengths[0] };
            tally.compare(Case::of_lengths(given, list, lengths, random), random)?;
            given.t = if given.t == good.t { random.between(2, 255) } else { given.t };
            tally.compare(Case::of_lengths(given, list, lengths, random), random)?;
        }
    }
    Ok(())
}

/// All small numbers, and every mixture of refusals 1, 2, 3, 13, 4 and 5, also of none. A number that is no node is put
/// last in the list, or what a byte leaves of it.
fn every_number(tally: &mut Tally, random: &mut Random) -> Result<(), String> {
    for (profile, node) in small_and_refused_numbers(random) {
        let small = small_like(&Wanted { profile, lost: node, recording: Recording::default() }).profile;
        let mut nodes = random_list(small.n, small.k, random);
        if node >= small.n {
            nodes[small.k - 1] = node as u8;
        }
        let length = small.data_length();
        let other = random.one_of(&lengths_for(&small));
        for lengths in [(length, length), (length, length + 1), (length.saturating_sub(1), length), other] {
            tally.compare(Case::of_lengths(profile, &nodes, lengths, random), random)?;
        }
    }
    Ok(())
}

/// Ambiguous and other readings, perhaps some of their numbers, the list or the lengths replaced by others.
fn mixed_calls(ambiguous: &[(Profile, Vec<u8>)], tally: &mut Tally, random: &mut Random) -> Result<(), String> {
    let small = |k: usize, rows: usize| k * rows <= 24;
    let accepted: Vec<_> = code::all_accepted().into_iter().filter(|&(_, k, rows)| small(k, rows)).collect();
    let ambiguous: Vec<_> = ambiguous.iter().filter(|(profile, _)| small(profile.k, profile.rows)).collect();
    for _ in 0..40_000 {
        let (mut good, mut nodes) = ambiguous[random.between(0, ambiguous.len() - 1)].clone();
        if random.between(0, 2) > 0 {
            let (n, k, rows) = random.one_of(&accepted);
            (good, nodes) = (random_profile(n, k, rows, random), random_list(n, k, random));
        }
        good.s = random.between(1, 4);
        let (mut given, mut last) = (good, usize::from(nodes[good.k - 1]));
        let mut lengths = (good.data_length(), good.data_length());
        let mut faulty = false;
        for _ in 0..random.between(0, 2) {
            match random.between(0, 3) {
                0 | 1 => replace_number(&good, &mut given, &mut last, random),
                2 => lengths = random.one_of(&lengths_for(&good)),
                _ => faulty = true,
            }
        }
        if faulty {
            let lists = faulty_lists(good.n, &nodes, random);
            nodes = lists[random.between(0, lists.len() - 1)].clone();
        } else {
            nodes[good.k - 1] = last as u8;
        }
        tally.compare(Case::of_lengths(given, &nodes, lengths, random), random)?;
    }
    Ok(())
}
