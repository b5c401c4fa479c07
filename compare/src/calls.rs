//! What the kinds about whole calls share: their tally, and numbers to call with.

use crate::code::{self, Profile, Refusal, EDITIONS};
use crate::download::{Recording, Wanted};
use crate::random::Random;
use crate::{Count, Outcome};

/// One call with all that it is given.
pub trait Call {
    /// The whole comparison: answer, bytes written, bytes that must stay. Gives the refusal that both agree on.
    fn compare(&self, random: &mut Random) -> Result<Option<Refusal>, String>;
}

/// How many calls were accepted, and how many refused with each number.
#[derive(Default)]
pub struct Tally {
    accepted: usize,
    refused: [usize; 14],
}

/// How often a call must be seen to give each of its refusals, and a survey to come to each of its outcomes.
pub const OFTEN: usize = 100;

impl Tally {
    pub fn compare(&mut self, call: impl Call, random: &mut Random) -> Result<(), String> {
        self.count(call.compare(random)?);
        Ok(())
    }

    /// Counts a call that agreed, with its refusal if it was refused.
    pub fn count(&mut self, refusal: Option<Refusal>) {
        match refusal {
            None => self.accepted += 1,
            Some(refusal) => self.refused[usize::from(refusal.number())] += 1,
        }
    }

    /// The counts of a call that has the refusals with these numbers.
    pub fn counts(&self, accepted: &'static str, refused: &'static str, numbers: &[u8]) -> Outcome {
        Ok(vec![Count::of(accepted, self.accepted), self.refused_count(refused, numbers)?])
    }

    /// The same of the refused calls alone.
    pub fn refused_count(&self, refused: &'static str, numbers: &[u8]) -> Result<Count, String> {
        let by_refusal: Vec<(u8, usize)> =
            numbers.iter().map(|&number| (number, self.refused[usize::from(number)])).collect();
        if let Some((number, cases)) = by_refusal.iter().find(|(_, cases)| *cases < OFTEN) {
            return Err(format!("{refused}: number {number} was met {cases} times, not {OFTEN}"));
        }
        Ok(Count { what: refused, cases: self.refused.iter().sum(), by_refusal })
    }
}

/// Numbers that a narrower type would cut down to small ones, or whose products go past a machine word.
pub const HUGE: [usize; 8] =
    [usize::MAX, usize::MAX - 1, 1 << 63, (1 << 63) + 2, (1 << 62) + 4, 1 << 32, (1 << 32) + 2, (1 << 16) + 2];

/// n, k and A that are not accepted, each for one reason or several.
pub fn refused_nodes_and_rows() -> Vec<(usize, usize, usize)> {
    let mut refused = vec![
        // k below 1, n not above k
        (4, 0, 2),
        (4, 4, 2),
        (4, 5, 2),
        (0, 0, 0),
        (0, 0, 2),
        (0, 2, 2),
        // A below 2 or above 4
        (4, 2, 0),
        (4, 2, 1),
        (10, 5, 5),
        (24, 12, 6),
        // A above n-k
        (4, 3, 2),
        (3, 1, 3),
        (8, 5, 4),
        // A does not divide n
        (5, 2, 2),
        (7, 3, 3),
        (14, 10, 4),
        // n above 24
        (25, 20, 5),
        (25, 20, 2),
        (26, 20, 2),
        (27, 20, 3),
        (28, 20, 4),
        // numbers that a byte would cut down to (4,2,2)
        (260, 2, 2),
        (4, 258, 2),
        (4, 2, 258),
        (260, 258, 258),
        // differences and products at the end of a machine word
        (usize::MAX, usize::MAX - 3, 3),
        (1 << 32, 1 << 31, 1 << 32),
    ];
    for huge in HUGE {
        refused.extend([(huge, 2, 2), (4, huge, 2), (4, 2, huge), (huge, huge, 2), (huge, huge, huge)]);
    }
    refused
}

/// An accepted t and S, often at an edge, and either edition, with these accepted numbers.
pub fn random_profile(n: usize, k: usize, rows: usize, random: &mut Random) -> Profile {
    let (any_t, any_s) = (random.between(2, 255), random.between(1, 512));
    let (t, s) = (random.one_of(&[2, 255, any_t, any_t]), random.one_of(&[1, 512, any_s, any_s]));
    Profile { n, k, rows, t, s, edition: random.one_of(&EDITIONS) }
}

/// Editions that are not accepted: those beside 1 and 2, those that a narrower type would cut down to 1 or 2, others.
pub fn refused_editions() -> Vec<usize> {
    let mut refused = vec![0, 3, 255, 256];
    for edition in EDITIONS {
        refused.extend(far_from(edition));
    }
    refused.sort();
    refused.dedup();
    refused
}

/// A profile and a lost node: all small n, k and A; then all small t, S, editions and lost nodes of accepted n, k and
/// A.
fn small_numbers(random: &mut Random) -> Vec<(Profile, usize)> {
    let mut numbers = Vec::new();
    for n in 0..=30 {
        for k in 0..=30 {
            numbers.extend((0..=6).map(|rows| (random_profile(n, k, rows, random), random.between(0, 30))));
        }
    }
    for (n, k, rows) in [(4, 2, 2), (6, 3, 3), (8, 4, 4)] {
        for edition in EDITIONS {
            let profile = Profile { n, k, rows, t: 3, s: 2, edition };
            numbers.extend((0..=600).map(|t| (Profile { t, ..profile }, n - 1)));
            numbers.extend((0..=1100).map(|s| (Profile { s, ..profile }, n - 1)));
            numbers.extend((0..=600).map(|lost| (profile, lost)));
        }
        numbers.extend((0..=600).map(|edition| (Profile { n, k, rows, t: 3, s: 2, edition }, n - 1)));
    }
    numbers
}

/// Every mixture of refusals 1, 2, 3 and 13, also of none, with these t and S and each way to come to 1 and to 13.
/// Where 2 or 3 applies, which are tried before 13, a few editions are enough, and where 1 does, one of them.
pub fn profiles_in_every_order(constants: &[usize], strips: &[usize], random: &mut Random) -> Vec<Profile> {
    let mut shapes = vec![(4, 2, 2), (4, 1, 2), (6, 3, 3), (8, 4, 4), (24, 20, 4)];
    shapes.extend(refused_nodes_and_rows());
    let refused = refused_editions();
    let mut profiles = Vec::new();
    for (n, k, rows) in shapes {
        for (&t, &s) in constants.iter().flat_map(|t| strips.iter().map(move |s| (t, s))) {
            let mut few = vec![random.one_of(&EDITIONS)];
            few.extend([0; 3].map(|_| random.one_of(&refused)));
            let one = random.one_of(&[few[0], few[1]]);
            let editions = match (Profile { n, k, rows, t, s, edition: 1 }).refusal() {
                None => [&EDITIONS[..], &refused].concat(),
                Some(Refusal::NodesOrRows) => vec![one],
                Some(_) => few,
            };
            profiles.extend(editions.into_iter().map(|edition| Profile { n, k, rows, t, s, edition }));
        }
    }
    profiles
}

/// A profile and a lost node: every mixture of refusals 1, 2, 3, 13 and 4, also of none, with each way to come to each.
fn numbers_in_every_order(random: &mut Random) -> Vec<(Profile, usize)> {
    let constants = [2, 255, 0, 1, 256, 258, 1 << 32, (1 << 63) + 2, usize::MAX];
    let strips = [1, 512, 0, 513, 65537, 1 << 32, 1 << 63, usize::MAX];
    let mut numbers = Vec::new();
    for profile in profiles_in_every_order(&constants, &strips, random) {
        let n = profile.n;
        let mut nodes = vec![0, n.saturating_sub(1), n, n.saturating_add(1), 256, 260];
        nodes.extend(HUGE);
        numbers.extend(nodes.into_iter().map(|lost| (profile, lost)));
    }
    numbers
}

/// Numbers far out of range, among them all that a type of 1, 2 or 4 bytes, or of 63 bits, would cut down to this one.
fn far_from(number: usize) -> [usize; 8] {
    let cut_down = [1 << 8, 1 << 16, 1 << 32, 1 << 63].map(|past| number + past);
    let [byte, two_bytes, four_bytes, bits] = cut_down;
    [byte, two_bytes, four_bytes, bits, 1 << 32, 1 << 63, usize::MAX - 1, usize::MAX]
}

/// Each accepted (n, k, A), short strips and a node: that profile; then a profile and a lost node, in which one of the
/// seven numbers is replaced by one far out of range.
pub fn far_numbers(random: &mut Random) -> Vec<(Profile, (Profile, usize))> {
    let mut numbers = Vec::new();
    for (n, k, rows) in code::all_accepted() {
        let accepted = Profile { s: random.between(1, 4), ..random_profile(n, k, rows, random) };
        let Profile { t, s, edition, .. } = accepted;
        let lost = random.between(0, n - 1);
        let far = [n, k, rows, t, s, edition].map(far_from);
        numbers.extend(far[0].map(|n| (accepted, (Profile { n, ..accepted }, lost))));
        numbers.extend(far[1].map(|k| (accepted, (Profile { k, ..accepted }, lost))));
        numbers.extend(far[2].map(|rows| (accepted, (Profile { rows, ..accepted }, lost))));
        numbers.extend(far[3].map(|t| (accepted, (Profile { t, ..accepted }, lost))));
        numbers.extend(far[4].map(|s| (accepted, (Profile { s, ..accepted }, lost))));
        numbers.extend(far[5].map(|edition| (accepted, (Profile { edition, ..accepted }, lost))));
        numbers.extend(far_from(lost).map(|lost| (accepted, (accepted, lost))));
    }
    numbers
}

/// A profile and a lost node: all of the three lists above.
pub fn small_and_refused_numbers(random: &mut Random) -> Vec<(Profile, usize)> {
    let far = far_numbers(random).into_iter().map(|(_, numbers)| numbers).collect();
    [small_numbers(random), numbers_in_every_order(random), far].concat()
}

/// A number near the edges of what is accepted, or one that a narrower type would cut down to such a number.
fn edge(edges: &[usize], random: &mut Random) -> usize {
    let small = random.between(0, 30);
    let cut_down = small + random.one_of(&[1 << 8, 1 << 16, 1 << 32, 1 << 63]);
    let (near, huge) = (random.one_of(edges), random.one_of(&HUGE));
    random.one_of(&[near, near, small, cut_down, huge])
}

/// Replaces one number of accepted ones, perhaps replaced before, by another.
pub fn replace_number(accepted: &Profile, profile: &mut Profile, lost: &mut usize, random: &mut Random) {
    let Profile { n, k, rows, .. } = *accepted;
    match random.between(0, 11) {
        0 => profile.n = edge(&[k, n - 1, n + 1, 24, 25, 260], random),
        1 => profile.k = edge(&[0, 1, n - rows, n - rows + 1, n], random),
        2 => profile.rows = edge(&[0, 1, 2, 3, 4, 5], random),
        3 | 4 => profile.t = edge(&[0, 1, 2, 255, 256, 257], random),
        5 | 6 => profile.s = edge(&[0, 1, 512, 513, 1024], random),
        7 | 8 => profile.edition = edge(&[0, 1, 2, 3, 257, 258], random),
        _ => *lost = edge(&[n - 1, n, n + 1, 256, 260], random),
    }
}

/// A scenario number, often at an edge.
fn random_scenario(random: &mut Random) -> u32 {
    let any = random.number() as u32;
    random.one_of(&[0, 7, 1 << 24, u32::MAX, any, any, any])
}

/// Runs at the edges of one byte and of two.
pub const EDGES_OF_RUNS: [u16; 8] = [0, 1, 255, 256, 257, 1 << 15, u16::MAX - 1, u16::MAX];

/// A run, often at an edge.
fn random_run(random: &mut Random) -> u16 {
    let (edge, any) = (random.one_of(&EDGES_OF_RUNS), random.number() as u16);
    random.one_of(&[edge, edge, any])
}

/// A scenario and a run, each often at an edge.
pub fn random_recording(random: &mut Random) -> Recording {
    Recording { scenario: random_scenario(random), run: random_run(random) }
}

/// Numbers like these that a bundle can be made for, and its length told: what a narrower type would leave of them
/// where that is small, else those of document 01's samples.
pub fn small_like(wanted: &Wanted) -> Wanted {
    let byte = |number: usize| number & 0xFF;
    let Profile { n, k, rows, t, s, edition } = wanted.profile;
    let (mut n, mut k, mut rows, s) = (byte(n), byte(k), byte(rows), s & 0xFFFF);
    let small = n <= 30 && (1..=n).contains(&k) && (1..=6).contains(&rows) && rows <= n && n % rows == 0;
    if !small {
        (n, k, rows) = (4, 2, 2);
    }
    let edition = if EDITIONS.contains(&byte(edition)) { byte(edition) } else { 1 + edition % 2 };
    let profile = Profile { n, k, rows, t: byte(t), s: if s <= 1100 { s } else { 1 }, edition };
    Wanted { profile, lost: if byte(wanted.lost) < n { byte(wanted.lost) } else { 0 }, ..*wanted }
}

/// Each accepted (n, k, A) with each lost node in either edition, any t and recording, and a short strip.
pub fn every_lost_node(random: &mut Random) -> Vec<Wanted> {
    let mut all = Vec::new();
    for (n, k, rows) in code::all_accepted() {
        for lost in 0..n {
            let profile = Profile { s: random.between(1, 8), ..random_profile(n, k, rows, random) };
            let wanted = Wanted { profile, lost, recording: random_recording(random) };
            all.extend(wanted.in_either_edition());
        }
    }
    all
}

/// Each accepted (n, k, A) with one lost node, any t, edition and recording, and a strip of one of these lengths.
pub fn every_shape(strip_lengths: std::ops::RangeInclusive<usize>, random: &mut Random) -> Vec<Wanted> {
    let (shortest, longest) = strip_lengths.into_inner();
    let any = |(n, k, rows): (usize, usize, usize)| {
        let profile = Profile { s: random.between(shortest, longest), ..random_profile(n, k, rows, random) };
        Wanted { profile, lost: random.between(0, n - 1), recording: random_recording(random) }
    };
    code::all_accepted().into_iter().map(any).collect()
}

/// The same with each accepted (n, k, A) for which an S gives a bundle of this length.
pub fn with_length(wanted: &Wanted, length: usize, length_of: fn(&Wanted) -> usize) -> Vec<Wanted> {
    let mut all = Vec::new();
    for (n, k, rows) in code::all_accepted() {
        let with_strips = |s: usize| {
            let profile = Profile { n, k, rows, s, ..wanted.profile };
            Wanted { profile, lost: wanted.lost % n, ..*wanted }
        };
        all.extend((1..=code::MOST_STRIP_BYTES).map(with_strips).find(|other| length_of(other) == length));
    }
    all
}
