//! Document 01's reading back and survey. Both are decided by the rank of the generator: the table of what each stored
//! symbol is for each unit of the data.

use crate::code::{self, Place, Profile, Refusal};
use crate::random::Random;
use crate::solving;
use std::collections::HashMap;

/// For each place of an array, in its order, the multiples of the kA data symbols whose sum is stored there: nA rows of
/// kA bytes. "all rules below hold at each byte offset of a strip on its own", so S is 1 here.
pub struct Generator {
    profile: Profile,
    rows: Vec<Vec<u8>>,
}

impl Generator {
    /// For accepted numbers.
    pub fn of(profile: &Profile) -> Generator {
        let profile = Profile { s: 1, ..*profile };
        Generator { profile, rows: solving::multiples(&profile, &profile.places()) }
    }

    /// "A set fails if two different data give the same columns on it": if the rank of the set's kA rows is below kA.
    pub fn fails(&self, nodes: &[u8]) -> bool {
        let symbols = self.profile.k * self.profile.rows;
        let places = places_on(&self.profile, nodes).into_iter();
        let mut rows: Vec<Vec<u8>> = places.map(|place| self.rows[self.profile.strip_start(place)].clone()).collect();
        let solved = solving::eliminate(&mut rows, symbols);
        let Some(free) = (0..symbols).find(|symbol| !solved.contains(symbol)) else {
            return false;
        };
        // Two such data are zeros and these.
        let mut data = vec![0; symbols];
        data[free] = 1;
        for (row, &symbol) in rows.iter().zip(&solved) {
            data[symbol] = row[free];
        }
        let columns = columns_of(&self.profile, &data, nodes);
        assert!(columns.iter().all(|&byte| byte == 0), "the rank is low, yet the columns differ");
        true
    }
}

/// Any list of k of n nodes, rising.
pub fn random_list(n: usize, k: usize, random: &mut Random) -> Vec<u8> {
    random.subset(k, n).into_iter().map(|node| node as u8).collect()
}

/// The same numbers, which are accepted, with a t for which a set of nodes fails, and the set: a few sets are tried
/// with each of some t. Nothing if none is found soon.
pub fn find_failing(profile: &Profile, random: &mut Random) -> Option<(Profile, Vec<u8>)> {
    let constants = (1_000_000 / (profile.k * profile.rows).pow(3)).clamp(8, 50);
    (0..constants).find_map(|_| {
        let profile = Profile { t: random.between(2, 255), ..*profile };
        let generator = Generator::of(&profile);
        let mut lists = (0..8).map(|_| random_list(profile.n, profile.k, random));
        lists.find(|nodes| generator.fails(nodes)).map(|nodes| (profile, nodes))
    })
}

/// The places of these nodes' columns joined in list order.
fn places_on(profile: &Profile, nodes: &[u8]) -> Vec<Place> {
    nodes.iter().flat_map(|&node| (0..profile.rows).map(move |row| Place { node: node.into(), row })).collect()
}

/// "those nodes' columns joined in list order", of the array that the data give.
pub fn columns_of(profile: &Profile, data: &[u8], nodes: &[u8]) -> Vec<u8> {
    let array = code::couple(profile, &code::base_of(profile, data));
    nodes.iter().flat_map(|&node| profile.column_of(&array, node.into())).copied().collect()
}

/// "k strictly rising numbers below n".
fn is_node_list(profile: &Profile, nodes: &[u8]) -> bool {
    let rising = nodes.windows(2).all(|pair| pair[0] < pair[1]);
    nodes.len() == profile.k && rising && nodes.iter().all(|&node| usize::from(node) < profile.n)
}

/// What reading back answers: the data, or the first refusal that applies. The data are solved for; where the rank is
/// full, any columns are those of some data.
pub fn read_back(
    profile: &Profile,
    nodes: &[u8],
    columns: &[u8],
    data_length: usize,
    random: &mut Random,
) -> Result<Vec<u8>, Refusal> {
    if let Some(refusal) = profile.refusal() {
        return Err(refusal);
    }
    if !is_node_list(profile, nodes) {
        return Err(Refusal::OutOfRange);
    }
    if columns.len() != profile.data_length() || data_length != profile.data_length() {
        return Err(Refusal::BufferLength);
    }
    if Generator::of(profile).fails(nodes) {
        return Err(Refusal::Ambiguous);
    }
    let strips: Vec<Vec<u8>> = columns.chunks(profile.s).map(<[u8]>::to_vec).collect();
    Ok(solving::data_with(profile, &places_on(profile, nodes), &strips, random).expect("the rank is full"))
}

/// "The answer is one of: failing, with position .. and the set written out; done; open."
pub enum Found {
    Failing { position: usize, set: Vec<u8> },
    Done,
    Open,
}

/// "With it goes the number of sets looked at".
pub struct Survey {
    pub found: Found,
    pub looked_at: usize,
}

/// The sets of k nodes in lexicographic order, and which of them fail with a profile, as far as that was asked. Nothing
/// is worked out twice while the same profile is asked for.
pub struct Sets {
    generator: Generator,
    sets: Vec<u32>,
    known: HashMap<usize, bool>,
}

impl Sets {
    /// For accepted numbers.
    pub fn of(profile: &Profile) -> Sets {
        let sets = sets_in_order(profile.n, profile.k);
        Sets { generator: Generator::of(profile), sets, known: HashMap::new() }
    }

    /// Turns to a profile with accepted numbers.
    pub fn turn_to(&mut self, profile: &Profile) {
        let before = self.generator.profile;
        if (before.n, before.k) != (profile.n, profile.k) {
            *self = Sets::of(profile);
        } else if (before.rows, before.t) != (profile.rows, profile.t) {
            self.generator = Generator::of(profile);
            self.known.clear();
        }
    }

    pub fn count(&self) -> usize {
        self.sets.len()
    }

    /// The set at a position, its nodes rising.
    pub fn at(&self, position: usize) -> Vec<u8> {
        members(self.sets[position])
    }

    /// Where this set of k nodes stands.
    pub fn position_of(&self, nodes: &[u8]) -> usize {
        let set = nodes.iter().fold(0, |set, node| set | 1 << node);
        self.sets.iter().position(|&other| other == set).expect("it is a set of k nodes")
    }

    /// The positions of all failing sets.
    pub fn failing(&mut self) -> Vec<usize> {
        (0..self.count()).filter(|&position| self.fails(position)).collect()
    }

    pub fn fails(&mut self, position: usize) -> bool {
        let set = self.at(position);
        *self.known.entry(position).or_insert_with(|| self.generator.fails(&set))
    }

    /// What a survey answers, or the first refusal that applies.
    pub fn survey(
        &mut self,
        profile: &Profile,
        start: usize,
        most: usize,
        set_length: usize,
    ) -> Result<Survey, Refusal> {
        if let Some(refusal) = profile.refusal() {
            return Err(refusal);
        }
        self.turn_to(profile);
        if start > self.count() {
            return Err(Refusal::OutOfRange);
        }
        if set_length != profile.k {
            return Err(Refusal::BufferLength);
        }
        // "up to and with the first failing one, if it is among the first B from the start, else the smaller of B and
        // what was left. Without a failing set among those it is done if none is left after that, otherwise open."
        let left = self.count() - start;
        let smaller = most.min(left);
        for looked_at in 1..=smaller {
            let position = start + looked_at - 1;
            if self.fails(position) {
                return Ok(Survey { found: Found::Failing { position, set: self.at(position) }, looked_at });
            }
        }
        Ok(Survey { found: if smaller == left { Found::Done } else { Found::Open }, looked_at: smaller })
    }
}

/// All sets of k of n nodes in lexicographic order, each as a word with the bit of each of its nodes.
fn sets_in_order(n: usize, k: usize) -> Vec<u32> {
    fn extend(sets: &mut Vec<u32>, chosen: u32, next: usize, n: usize, missing: usize) {
        if missing == 0 {
            sets.push(chosen);
            return;
        }
        for node in next..=n - missing {
            extend(sets, chosen | 1 << node, node + 1, n, missing - 1);
        }
    }
    let mut sets = Vec::new();
    extend(&mut sets, 0, 0, n, k);
    if n <= 9 {
        let mut lists: Vec<Vec<u8>> =
            (0..1u32 << n).filter(|set| set.count_ones() as usize == k).map(members).collect();
        lists.sort();
        assert_eq!(lists, sets.iter().map(|&set| members(set)).collect::<Vec<_>>(), "the sets are not in order");
    }
    sets
}

fn members(set: u32) -> Vec<u8> {
    (0..32).filter(|&node| set >> node & 1 == 1).collect()
}
