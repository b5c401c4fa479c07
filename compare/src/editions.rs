//! The kinds about K6's two editions: plans in either, and bundles of one edition that are wanted in the other. Each
//! bundle is made so that its answer is known.

use crate::calls::{every_lost_node, every_shape, random_recording, with_length, Tally};
use crate::code::{self, Place, Profile, Refusal};
use crate::download::Wanted;
use crate::plans;
use crate::random::Random;
use crate::rebuilds::{misplace, random_bundle};
use crate::recordings::compare_made;
use crate::{hex, Count, Outcome};

/// Plans worked out by hand from the sentences of document 01 and of K6: (n, k, A), the lost node, the edition, and the
/// places, node and row.
const PLANS: [((usize, usize, usize), usize, usize, &[u8]); 4] = [
    ((6, 2, 2), 2, 1, &[3, 0, 0, 0, 4, 0]),
    ((6, 2, 2), 2, 2, &[3, 0, 4, 0, 0, 0]),
    ((9, 6, 3), 4, 1, &[3, 1, 5, 1, 1, 1, 7, 1, 0, 1, 1, 0, 2, 1, 1, 2, 6, 1, 7, 0, 8, 1, 7, 2]),
    ((9, 6, 3), 4, 2, &[3, 1, 5, 1, 7, 1, 1, 1, 6, 1, 7, 0, 8, 1, 7, 2, 0, 1, 1, 0, 2, 1, 1, 2]),
];

/// Those plans.
pub fn samples(random: &mut Random) -> Outcome {
    for ((n, k, rows), lost, edition, expected) in PLANS {
        same_plans(&Profile { n, k, rows, t: 2, s: 1, edition }, lost, expected, random)?;
    }
    Ok(vec![Count::of("samples of editions", PLANS.len())])
}

/// Compares this plan with this program's own and with the library's.
fn same_plans(profile: &Profile, lost: usize, expected: &[u8], random: &mut Random) -> Result<(), String> {
    let case = plans::Case { profile: *profile, lost, places: random.bytes(expected.len()) };
    let defined = code::plan_bytes(&profile.planned_places(lost));
    if defined != expected {
        return Err(case.disagreement(format!("this program's plan is {}, expected {}", hex(&defined), hex(expected))));
    }
    let given = case.call(Ok(expected.len() / 2), random)?;
    case.same_places(&given, expected)
}

/// Each accepted (n, k, A) with each lost node: what is known of the two plans without a walk.
pub fn two_plans(random: &mut Random) -> Outcome {
    let all = every_lost_node(random);
    for &Wanted { profile, lost, .. } in &all {
        let [first, second] = [1, 2].map(|edition| profile.in_edition(edition).planned_places(lost));
        if let Some(wrong) = wrong_with(&profile, lost, &first, &second) {
            return Err(format!("this program's plans of both editions for {profile} lost={lost}: {wrong}"));
        }
        let expected = if profile.edition == 1 { first } else { turned_plan(&profile, lost) };
        same_plans(&profile, lost, &code::plan_bytes(&expected), random)?;
    }
    Ok(vec![Count::of("plans of two editions", all.len())])
}

/// What is wrong with the plans of both editions, if something is. Each has the number of places of document 01, all of
/// them different, and the same step 1. They are the same where the lost node's group is the first or the last one, so
/// with (4,2,2) always; elsewhere step 2 begins with another node.
fn wrong_with(profile: &Profile, lost: usize, first: &[Place], second: &[Place]) -> Option<&'static str> {
    let group = lost / profile.rows;
    let at_an_end = group == 0 || group == profile.n / profile.rows - 1;
    let own = profile.rows - 1;
    let repeated = |places: &[Place]| (1..places.len()).any(|index| places[..index].contains(&places[index]));
    if [first, second].iter().any(|places| places.len() != profile.number_of_places()) {
        Some("their number is not document 01's")
    } else if repeated(first) || repeated(second) {
        Some("a place is listed twice")
    } else if first[..own] != second[..own] {
        Some("step 1 is not the same")
    } else if at_an_end && first != second {
        Some("they are not the same")
    } else if !at_an_end && first[own] == second[own] {
        Some("step 2 begins with the same node")
    } else {
        None
    }
}

/// Edition 2's plan by edition 1's. After the lost node's group the walk comes to the groups past it and then to those
/// before it; with the groups turned so that the lost node's is the last one, that is "rising".
fn turned_plan(profile: &Profile, lost: usize) -> Vec<Place> {
    let n = profile.n;
    let turn = (lost / profile.rows + 1) * profile.rows;
    let turned = profile.in_edition(1).planned_places((lost + n - turn) % n);
    turned.into_iter().map(|Place { node, row }| Place { node: (node + turn) % n, row }).collect()
}

/// Whole rebuilds in which the two editions meet, each counted as accepted or refused. K6: "6 and 7 read the edition
/// too."
pub fn two_editions(random: &mut Random) -> Outcome {
    let mut tally = Tally::default();
    for wanted in every_lost_node(random) {
        let mut made = foreign_bundles(&wanted, random);
        made.extend(foreign_openings(&wanted, random));
        made.extend(foreign_ends(&wanted, random));
        made.extend(made_to_fit(&wanted, random));
        for (due, bundle) in made {
            compare_made(due, wanted, bundle, &mut tally, random)?;
        }
    }
    other_profiles(&mut tally, random)?;
    tally.counts("rebuilds of one edition accepted", "rebuilds of two editions refused", &[6, 7, 8])
}

/// A bundle and what it was made to get: a refusal, or none.
type Made = (Option<Refusal>, Vec<u8>);

/// Bundles of the other edition, which are 6 whatever else is in them: for what is wanted, with a misplaced strip, for
/// another node and recording, and made as long as is wanted at the end. Then one whose field 01 alone is made that of
/// the wanted edition: its places are those of the other edition's plan.
fn foreign_bundles(wanted: &Wanted, random: &mut Random) -> Vec<Made> {
    let foreign = wanted.in_other_edition();
    let bundle = random_bundle(&foreign, random);
    let mut misplaced = bundle.clone();
    misplace(&foreign, &mut misplaced, random.between(0, foreign.places().len() - 1), random);
    let lost = random.between(0, foreign.profile.n - 1);
    let elsewhere = random_bundle(&Wanted { lost, recording: random_recording(random), ..foreign }, random);
    let mut all = vec![bundle.clone(), misplaced, elsewhere];
    for filling in [0, 2] {
        let mut fitting = bundle.clone();
        fitting.resize(wanted.bundle_length(), filling);
        all.push(fitting);
    }
    // where the bundle is cut to that length, both are the same
    all.dedup();
    let mut made: Vec<Made> = all.into_iter().map(|bundle| (Some(Refusal::BundleForm), bundle)).collect();

    let (planned, listed) = (wanted.places(), foreign.places());
    let misplaced = (0..planned.len()).find(|&index| planned[index] != listed[index]);
    let profile_field = &random_bundle(wanted, random)[..wanted.lost_field_start()];
    made.push((misplaced.map(Refusal::Misplaced), [profile_field, &bundle[foreign.lost_field_start()..]].concat()));
    made
}

/// Bundles in which the length in the opening, "01 00 06" or "01 00 07", is alone of its edition: a bundle of the
/// wanted edition that opens as one of the other, and the other way round, as it is and made as long as is wanted.
fn foreign_openings(wanted: &Wanted, random: &mut Random) -> Vec<Made> {
    let mut own = random_bundle(wanted, random);
    let mut foreign = random_bundle(&wanted.in_other_edition(), random);
    (own[2], foreign[2]) = (foreign[2], own[2]);
    let mut fitting = foreign.clone();
    fitting.resize(own.len(), 0);
    [own, foreign, fitting].map(|bundle| (Some(Refusal::BundleForm), bundle)).to_vec()
}

/// Bundles with another last byte in field 01 where edition 2 is wanted, which is 7, also with a misplaced strip. Then,
/// in either edition, such as have one byte more in field 01 and in its length.
fn foreign_ends(wanted: &Wanted, random: &mut Random) -> Vec<Made> {
    let bundle = random_bundle(wanted, random);
    let end = wanted.lost_field_start();
    let mut made = Vec::new();
    if wanted.profile.edition == 2 {
        let any = random.between(3, 255) as u8;
        for byte in [0, 1, 3, 0x82, 0xFF, any] {
            let mut changed = bundle.clone();
            changed[end - 1] = byte;
            made.push((Some(Refusal::BundleHead), changed.clone()));
            misplace(wanted, &mut changed, 0, random);
            made.push((Some(Refusal::BundleHead), changed));
        }
    }
    for byte in [0, 1, 2] {
        let mut longer = [&bundle[..end], &[byte], &bundle[end..]].concat();
        longer[2] += 1;
        made.push((Some(Refusal::BundleForm), longer));
    }
    made
}

/// Bundles of the other edition, each made as long as is wanted by one byte put in or taken out, at each position up to
/// the end of field 01 and at some after it. The tag or the length of field 01 is wrong then but in two cases, in which
/// its content is: 07 put in before 06, the length's low byte, and that byte 07 taken out before n = 6.
fn made_to_fit(wanted: &Wanted, random: &mut Random) -> Vec<Made> {
    let first_strip = wanted.strip_field_start(0);
    let anywhere = random.between(first_strip + 1, wanted.bundle_length() - 2);
    let mut made = Vec::new();
    for at in (0..=wanted.lost_field_start()).chain([first_strip, anywhere]) {
        let mut bundle = random_bundle(&wanted.in_other_edition(), random);
        let in_form = if wanted.profile.edition == 2 {
            let any = random.number() as u8;
            bundle.insert(at, random.one_of(&[2, 7, any]));
            at == 2 && bundle[2] == 7
        } else {
            bundle.remove(at);
            at == 2 && wanted.profile.n == 6
        };
        made.push((Some(if in_form { Refusal::BundleHead } else { Refusal::BundleForm }), bundle));
    }
    made
}

/// Whole bundles of the other edition with the length that is wanted, for other profiles.
fn other_profiles(tally: &mut Tally, random: &mut Random) -> Result<(), String> {
    for wanted in every_shape(1..=8, random).iter().flat_map(Wanted::in_either_edition) {
        for foreign in with_length(&wanted.in_other_edition(), wanted.bundle_length(), Wanted::bundle_length) {
            compare_made(Some(Refusal::BundleForm), wanted, random_bundle(&foreign, random), tally, random)?;
        }
    }
    Ok(())
}
