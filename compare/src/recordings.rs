//! The kinds about two runs in one bundle, and about bundles of the form before K2. Each bundle is made so that its
//! answer is known.

use crate::bundles::SAMPLE_WANTED;
use crate::calls::{every_lost_node, every_shape, with_length, Tally};
use crate::code::{Profile, Refusal, EDITIONS};
use crate::download::Wanted;
use crate::library::Answer;
use crate::random::Random;
use crate::rebuilds::{misplace, other_runs, put_lost_field, random_bundle, random_strips, sample_strips, Case};
use crate::Outcome;

/// Compares a call whose bundle was made so that this is its answer. The documents' sentences, as download.rs has them,
/// must say the same of it.
pub fn compare_made(
    due: Option<Refusal>,
    wanted: Wanted,
    bundle: Vec<u8>,
    tally: &mut Tally,
    random: &mut Random,
) -> Result<(), String> {
    let case = Case::fitting(wanted, bundle, random);
    let defined = wanted.strips_for_rebuild(&case.bundle, case.column.len()).err();
    if defined != due {
        let [due, defined] = [due, defined].map(|refusal| Answer::due(refusal.map_or(Ok(0), Err)));
        return Err(case.disagreement(format!("the bundle is made to get {due}, and by the definition gets {defined}")));
    }
    tally.compare(case, random)
}

/// Whole calls in which two runs of one scenario meet, each counted as accepted or refused.
pub fn two_runs(random: &mut Random) -> Outcome {
    let mut tally = Tally::default();
    every_run(&mut tally, random)?;
    many_other_runs(&mut tally, random)?;
    mixed_runs(&mut tally, random)?;
    runs_and_places(&mut tally, random)?;
    tally.counts("rebuilds of one run accepted", "rebuilds of two runs refused", &[7, 8, 9])
}

/// Each run of the sample's scenario, and beside it another one, in any edition.
fn every_run(tally: &mut Tally, random: &mut Random) -> Result<(), String> {
    for run in 0..=u16::MAX {
        let wanted = SAMPLE_WANTED.with_run(run).in_edition(random.one_of(&EDITIONS));
        let runs = other_runs(wanted.recording, random);
        compare_made(None, wanted, wanted.bundle(&sample_strips()), tally, random)?;
        another_run(wanted, random.one_of(&runs), &sample_strips(), tally, random)?;
    }
    Ok(())
}

/// Each accepted (n, k, A) with many other runs.
fn many_other_runs(tally: &mut Tally, random: &mut Random) -> Result<(), String> {
    for wanted in every_shape(1..=3, random) {
        let strips = random_strips(&wanted, random);
        compare_made(None, wanted, wanted.bundle(&strips), tally, random)?;
        for run in other_runs(wanted.recording, random) {
            another_run(wanted, run, &strips, tally, random)?;
        }
    }
    Ok(())
}

/// Puts a strip's field of another bundle into this one.
fn take_strip(wanted: &Wanted, bundle: &mut [u8], from: &[u8], index: usize) {
    let field = wanted.strip_field_start(index)..wanted.strip_field_start(index + 1);
    bundle[field.clone()].copy_from_slice(&from[field]);
}

/// The bundle with these strips, in which another run stands in field 02 alone, in every field, in every strip, and in
/// each strip alone.
fn another_run(
    wanted: Wanted,
    run: u16,
    strips: &[Vec<u8>],
    tally: &mut Tally,
    random: &mut Random,
) -> Result<(), String> {
    let other = wanted.with_run(run);
    let (own, foreign) = (wanted.bundle(strips), other.bundle(strips));
    let (mut in_head, mut in_strips) = (own.clone(), foreign.clone());
    put_lost_field(&other, &mut in_head);
    put_lost_field(&wanted, &mut in_strips);
    let mut all =
        vec![(Refusal::BundleHead, in_head), (Refusal::BundleHead, foreign.clone()), (Refusal::Stale(0), in_strips)];
    for index in 0..strips.len() {
        let mut in_one = own.clone();
        take_strip(&wanted, &mut in_one, &foreign, index);
        all.push((Refusal::Stale(index), in_one));
    }
    for (refusal, bundle) in all {
        compare_made(Some(refusal), wanted, bundle, tally, random)?;
    }
    Ok(())
}

/// Which of so many strips are foreign, a bit for each: every choice where they are few; else each strip and none as
/// the first foreign one, those after it at random, three times.
fn choices(count: usize, random: &mut Random) -> Vec<u64> {
    let all = 1 << count;
    if count <= 6 {
        return (0..all).collect();
    }
    (0..3 * (count + 1)).map(|at| ((random.number() | 1) << at / 3) % all).collect()
}

/// The same for another run, and a bundle of either.
fn of_two_runs(wanted: &Wanted, random: &mut Random) -> (Wanted, Vec<u8>, Vec<u8>) {
    let runs = other_runs(wanted.recording, random);
    let other = wanted.with_run(random.one_of(&runs));
    (other, random_bundle(wanted, random), random_bundle(&other, random))
}

/// K2: "We ran scenario 212 twice in one afternoon, and a rebuild mixed the two." Each accepted (n, k, A): the bundles
/// of two runs mixed strip by strip, with the field 02 of the wanted run and with that of the other.
fn mixed_runs(tally: &mut Tally, random: &mut Random) -> Result<(), String> {
    for wanted in every_shape(1..=4, random) {
        let (other, own, foreign) = of_two_runs(&wanted, random);
        let count = wanted.places().len();
        for chosen in choices(count, random) {
            let is_foreign = |&index: &usize| chosen >> index & 1 == 1;
            let mut mixed = own.clone();
            for index in (0..count).filter(is_foreign) {
                take_strip(&wanted, &mut mixed, &foreign, index);
            }
            let mut other_head = mixed.clone();
            put_lost_field(&other, &mut other_head);
            let due = (0..count).find(is_foreign).map(Refusal::Stale);
            compare_made(due, wanted, mixed, tally, random)?;
            compare_made(Some(Refusal::BundleHead), wanted, other_head, tally, random)?;
        }
    }
    Ok(())
}

/// For each accepted (n, k, A) and each two strips, before or after each other or the same: one of another run and the
/// other misplaced, which is 8; all of another run and one misplaced, which is 8 too, and 7 with field 02 of that run.
fn runs_and_places(tally: &mut Tally, random: &mut Random) -> Result<(), String> {
    for wanted in every_shape(1..=3, random) {
        let (_, own, foreign) = of_two_runs(&wanted, random);
        let count = wanted.places().len();
        for misplaced in 0..count {
            let mut in_all = foreign.clone();
            misplace(&wanted, &mut in_all, misplaced, random);
            compare_made(Some(Refusal::BundleHead), wanted, in_all.clone(), tally, random)?;
            put_lost_field(&wanted, &mut in_all);
            let mut all = vec![in_all];
            for index in 0..count {
                let mut in_one = own.clone();
                take_strip(&wanted, &mut in_one, &foreign, index);
                misplace(&wanted, &mut in_one, misplaced, random);
                all.push(in_one);
            }
            for bundle in all {
                compare_made(Some(Refusal::Misplaced(misplaced)), wanted, bundle, tally, random)?;
            }
        }
    }
    Ok(())
}

/// K2: "old bundles get 6". Each accepted (n, k, A) with each lost node, wanted in either edition, for any run and for
/// run 0.
pub fn old_bundles(random: &mut Random) -> Outcome {
    let mut tally = Tally::default();
    for wanted in every_lost_node(random) {
        for wanted in [wanted, wanted.with_run(0)] {
            for bundle in old_forms(&wanted, random) {
                compare_made(Some(Refusal::BundleForm), wanted, bundle, &mut tally, random)?;
            }
        }
    }
    other_old_profiles(&mut tally, random)?;
    Ok(vec![tally.refused_count("rebuilds from old bundles refused", &[6])?])
}

/// Old bundles, which are of edition 1, and such as have the wanted field 01, an old field 02 or old fields 03 alone:
/// as they are, and made as long as is wanted by bytes at the end. Then old bundles of that length with longer strips
/// and either S in field 01: two bytes longer, so that the fields 03 have the length that is wanted, or three, which
/// needs no cut with two places where edition 1 is wanted, with three places where edition 2 is.
fn old_forms(wanted: &Wanted, random: &mut Random) -> Vec<Vec<u8>> {
    let strips = random_strips(wanted, random);
    let (new, old) = (wanted.bundle(&strips), wanted.old_bundle(&strips));
    let (second, first_strip) = (wanted.lost_field_start(), wanted.strip_field_start(0));
    let new_profile = [&new[..second], &old[9..]].concat();
    let old_strips = [&new[..first_strip], &old[17..]].concat();
    let old_head = [&old[..17], &new[first_strip..]].concat();
    let old_lost_field = [&new[..second], &old[9..17], &new[first_strip..]].concat();
    let (zeros, any) = (vec![0; new.len()], random.bytes(new.len()));
    let mut all = Vec::new();
    // where edition 1 is wanted, the wanted field 01 is the old one
    let mut forms = vec![old, new_profile, old_strips, old_head, old_lost_field];
    forms.dedup();
    for bundle in forms {
        all.extend([&zeros, &any, &new].map(|filling| [&bundle, &filling[bundle.len()..]].concat()));
        all.push(bundle);
    }
    for more in [2, 3] {
        let longer = Wanted { profile: Profile { s: wanted.profile.s + more, ..wanted.profile }, ..*wanted };
        let mut bundle = longer.old_bundle(&random_strips(&longer, random));
        bundle.resize(new.len(), 0);
        let mut wanted_profile = bundle.clone();
        wanted_profile[..second].copy_from_slice(&new[..second]);
        all.extend([bundle, wanted_profile]);
    }
    all
}

/// Whole old bundles with the length that is wanted, for other profiles.
fn other_old_profiles(tally: &mut Tally, random: &mut Random) -> Result<(), String> {
    for wanted in every_shape(1..=8, random).iter().flat_map(Wanted::in_either_edition) {
        for old in with_length(&wanted, wanted.bundle_length(), Wanted::old_bundle_length) {
            let bundle = old.old_bundle(&random_strips(&old, random));
            compare_made(Some(Refusal::BundleForm), wanted, bundle, tally, random)?;
        }
    }
    Ok(())
}
