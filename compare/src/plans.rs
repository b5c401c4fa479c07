//! The kinds about the rebuild plan: samples, lists of places, accepted and refused calls.

use crate::calls::{every_lost_node, random_profile, replace_number, small_and_refused_numbers, Call, Tally};
use crate::code::{self, Place, Profile, Refusal, EDITIONS};
use crate::download::Wanted;
use crate::library::{self, Answer, Lent};
use crate::random::Random;
use crate::{hex, Count, Outcome};

/// One call: the profile, the lost node and what the buffer for the places holds before.
pub struct Case {
    pub profile: Profile,
    pub lost: usize,
    pub places: Vec<u8>,
}

impl Case {
    /// Random bytes of this length.
    fn new(profile: Profile, lost: usize, places_length: usize, random: &mut Random) -> Case {
        Case { profile, lost, places: random.bytes(places_length) }
    }

    pub fn disagreement(&self, what: String) -> String {
        let Case { profile, lost, places } = self;
        format!("plan {profile} lost={lost} places_len={} places={}: {what}", places.len(), hex(places))
    }

    /// Calls the library; compares the answer with the number of places or the refusal in `expected`, and every
    /// byte that must not change. Gives the plan's bytes, none after a refusal.
    pub fn call(&self, expected: Result<usize, Refusal>, random: &mut Random) -> Result<Vec<u8>, String> {
        let mut places = Lent::new(&self.places, random);
        let answer = library::plan(&self.profile, self.lost, &mut places);
        let due = Answer::due(expected);
        if answer != due {
            return Err(self.disagreement(format!("the library answers {answer}, expected {due}")));
        }
        if let Some(change) = places.change_outside(2 * expected.unwrap_or(0)) {
            return Err(self.disagreement(format!("the buffer is changed where it must stay, {change}")));
        }
        Ok(places.bytes()[..2 * expected.unwrap_or(0)].to_vec())
    }

    pub fn same_places(&self, given: &[u8], expected: &[u8]) -> Result<(), String> {
        if given == expected {
            return Ok(());
        }
        Err(self.disagreement(format!("the library's plan is {}, expected {}", hex(given), hex(expected))))
    }
}

impl Call for Case {
    fn compare(&self, random: &mut Random) -> Result<Option<Refusal>, String> {
        match code::plan(&self.profile, self.lost, self.places.len()) {
            Err(refusal) => {
                self.call(Err(refusal), random)?;
                Ok(Some(refusal))
            }
            Ok(expected) => {
                let given = self.call(Ok(expected.len()), random)?;
                self.same_places(&given, &code::plan_bytes(&expected))?;
                Ok(None)
            }
        }
    }
}

/// Document 01's M5 and M6, and its six examples of the number of places with each lost node, as they are printed
/// there, in either edition: with (4,2,2) both have the same plans, and the number of places is the same in both.
pub fn samples(random: &mut Random) -> Outcome {
    let examples =
        [((4, 2, 2), 4), ((6, 2, 2), 3), ((9, 6, 3), 12), ((14, 10, 2), 15), ((12, 8, 4), 17), ((24, 20, 4), 38)];
    let mut cases = 0;
    for edition in EDITIONS {
        let profile = Profile { n: 4, k: 2, rows: 2, t: 2, s: 1, edition };
        for (lost, expected) in [(0, [1, 0, 2, 0, 3, 0, 2, 1]), (3, [2, 1, 1, 1, 0, 1, 1, 0])] {
            let case = Case { profile, lost, places: vec![0xEE; 8] };
            let given = case.call(Ok(4), random)?;
            case.same_places(&given, &expected)?;
            cases += 1;
        }
        for ((n, k, rows), count) in examples {
            for lost in 0..n {
                let case = Case { profile: Profile { n, k, rows, ..profile }, lost, places: vec![0xEE; 2 * count] };
                case.call(Ok(count), random)?;
                cases += 1;
            }
        }
    }
    Ok(vec![Count::of("samples of plans", cases)])
}

/// The library's plans without the documents' steps: as many places as the formula says, all different, all in the
/// array, none on the lost node.
pub fn place_lists(random: &mut Random) -> Outcome {
    let all = every_lost_node(random);
    for &Wanted { profile, lost, .. } in &all {
        let count = profile.number_of_places();
        let case = Case::new(profile, lost, 2 * count, random);
        let given = case.call(Ok(count), random)?;
        check_places(&case, &given)?;
    }
    Ok(vec![Count::of("lists of places", all.len())])
}

fn check_places(case: &Case, given: &[u8]) -> Result<(), String> {
    let places: Vec<Place> = given.chunks(2).map(|pair| Place { node: pair[0].into(), row: pair[1].into() }).collect();
    for (index, place) in places.iter().enumerate() {
        let wrong = if place.node >= case.profile.n || place.row >= case.profile.rows {
            "is not in the array"
        } else if place.node == case.lost {
            "is on the lost node"
        } else if places[..index].contains(place) {
            "is listed before"
        } else {
            continue;
        };
        let Place { node, row } = place;
        let what = format!("place {index}, node {node} row {row}, {wrong} in the library's plan {}", hex(given));
        return Err(case.disagreement(what));
    }
    Ok(())
}

/// Whole calls, each counted as accepted or refused.
pub fn plans(random: &mut Random) -> Outcome {
    let mut tally = Tally::default();
    every_plan(&mut tally, random)?;
    every_number(&mut tally, random)?;
    mixed_calls(&mut tally, random)?;
    tally.counts("plans accepted", "plans refused", &[1, 2, 3, 13, 4, 5])
}

/// Each accepted (n, k, A) and each lost node in either edition, with a buffer exactly long enough, longer, one byte
/// too short, and shorter still; then with the first nodes past the last.
fn every_plan(tally: &mut Tally, random: &mut Random) -> Result<(), String> {
    for (n, k, rows) in code::all_accepted() {
        for (lost, edition) in (0..n + 2).flat_map(|lost| EDITIONS.map(|edition| (lost, edition))) {
            let profile = random_profile(n, k, rows, random).in_edition(edition);
            let needed = 2 * profile.number_of_places();
            let (longer, shorter) = (needed + random.between(2, 100), random.between(0, needed - 1));
            for length in [needed, needed + 1, longer, needed - 1, needed / 2, shorter, 0] {
                tally.compare(Case::new(profile, lost, length, random), random)?;
            }
        }
    }
    Ok(())
}

/// The lengths to lend with these numbers: the one that fits, one off, and none at all. Numbers that are not
/// accepted get those of (4,2,2), and one that is enough for every plan.
fn every_length(profile: &Profile) -> [usize; 4] {
    let accepted = code::nodes_and_rows_accepted(profile.n, profile.k, profile.rows);
    let needed = if accepted { 2 * profile.number_of_places() } else { 8 };
    [needed, needed - 1, 0, if accepted { needed + 1 } else { 80 }]
}

/// All small numbers, and every mixture of refusals 1, 2, 3, 13, 4 and 5, also of none.
fn every_number(tally: &mut Tally, random: &mut Random) -> Result<(), String> {
    for (profile, lost) in small_and_refused_numbers(random) {
        for length in every_length(&profile) {
            tally.compare(Case::new(profile, lost, length, random), random)?;
        }
    }
    Ok(())
}

/// Accepted numbers, one or several of them replaced by others, and any length of the buffer.
fn mixed_calls(tally: &mut Tally, random: &mut Random) -> Result<(), String> {
    let accepted = code::all_accepted();
    for _ in 0..200_000 {
        let (n, k, rows) = random.one_of(&accepted);
        let given = random_profile(n, k, rows, random);
        let (mut profile, mut lost) = (given, random.between(0, n - 1));
        for _ in 0..random.between(1, 3) {
            replace_number(&given, &mut profile, &mut lost, random);
        }
        let needed = every_length(&profile)[0];
        let any = random.between(0, 100);
        let length = random.one_of(&[needed, needed, needed + 1, needed - 1, any]);
        tally.compare(Case::new(profile, lost, length, random), random)?;
    }
    Ok(())
}
