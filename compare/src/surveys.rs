//! The kinds about the survey of a profile: samples, accepted calls by their outcome, and refused calls.

use crate::calls::{self, random_profile, replace_number, small_and_refused_numbers, Tally, HUGE, OFTEN};
use crate::code::{self, Profile, Refusal, EDITIONS};
use crate::download::{Recording, Wanted};
use crate::generator::{self, Found, Sets, Survey};
use crate::library::{self, Lent, SurveyAnswer};
use crate::random::Random;
use crate::{hex, Count, Outcome};

/// One call: the profile, the start, at most how many sets, and what the buffer for the set holds before.
struct Case {
    profile: Profile,
    start: usize,
    most: usize,
    set: Vec<u8>,
}

impl Case {
    fn new(profile: Profile, start: usize, most: usize, set_length: usize, random: &mut Random) -> Case {
        Case { profile, start, most, set: random.bytes(set_length) }
    }

    fn disagreement(&self, what: String) -> String {
        let Case { profile, start, most, set } = self;
        let (set_length, set) = (set.len(), hex(set));
        format!("survey {profile} start={start} most={most} set_len={set_length} set={set}: {what}")
    }

    /// Calls the library; compares answer, set written and every byte that must not change with the survey or the
    /// refusal in `expected`.
    fn call(&self, expected: Result<&Survey, Refusal>, random: &mut Random) -> Result<(), String> {
        let mut set = Lent::new(&self.set, random);
        let answer = library::survey(&self.profile, self.start, self.most, &mut set);
        let due = SurveyAnswer::due(expected);
        if answer != due {
            return Err(self.disagreement(format!("the library answers {answer}, expected {due}")));
        }
        // "The set goes to a lent buffer of k bytes, which stays as it was in the other two."
        let Ok(Survey { found: Found::Failing { set: failing, .. }, .. }) = expected else {
            return match set.change() {
                None => Ok(()),
                Some(change) => Err(self.disagreement(format!("the set's buffer is changed, {change}"))),
            };
        };
        if let Some(change) = set.change_around() {
            return Err(self.disagreement(format!("the bytes around the set's buffer are changed, {change}")));
        }
        if set.bytes() != failing {
            let (given, due) = (hex(set.bytes()), hex(failing));
            return Err(self.disagreement(format!("the library's set is {given}, expected {due}")));
        }
        Ok(())
    }
}

/// The calls that agreed: those accepted by their outcome, and the refused ones. The sets and their verdicts go with
/// them.
struct Surveys {
    sets: Sets,
    tally: Tally,
    failing: usize,
    done: usize,
    open: usize,
}

impl Surveys {
    fn compare(&mut self, case: Case, random: &mut Random) -> Result<(), String> {
        let expected = self.sets.survey(&case.profile, case.start, case.most, case.set.len());
        case.call(expected.as_ref().map_err(|&refusal| refusal), random)?;
        match &expected {
            Ok(Survey { found: Found::Failing { .. }, .. }) => self.failing += 1,
            Ok(Survey { found: Found::Done, .. }) => self.done += 1,
            Ok(Survey { found: Found::Open, .. }) => self.open += 1,
            Err(_) => {}
        }
        self.tally.count(expected.err());
        Ok(())
    }

    /// With a buffer for the set that fits accepted numbers.
    fn fitting(&mut self, profile: Profile, start: usize, most: usize, random: &mut Random) -> Result<(), String> {
        self.compare(Case::new(profile, start, most, profile.k, random), random)
    }

    fn counts(&self) -> Outcome {
        let accepted = [("surveys failing", self.failing), ("surveys done", self.done), ("surveys open", self.open)];
        if let Some((what, cases)) = accepted.iter().find(|(_, cases)| *cases < OFTEN) {
            return Err(format!("{what}: met {cases} times, not {OFTEN}"));
        }
        let mut counts: Vec<Count> = accepted.into_iter().map(|(what, cases)| Count::of(what, cases)).collect();
        counts.push(self.tally.refused_count("surveys refused", &[1, 2, 3, 13, 4, 5])?);
        Ok(counts)
    }
}

/// Document 01's M11 and M12, as they are printed there, in either edition.
pub fn samples(random: &mut Random) -> Outcome {
    for edition in EDITIONS {
        let m12 = Profile { n: 4, k: 2, rows: 2, t: 2, s: 1, edition };
        let m11 = Profile { t: 5, ..m12 };
        let failing = Found::Failing { position: 2, set: vec![0x00, 0x03] };
        for (profile, start, most, found, looked_at) in [
            (m11, 0, 6, failing, 3),
            (m12, 0, 6, Found::Done, 6),
            (m12, 0, 2, Found::Open, 2),
            (m12, 0, 0, Found::Open, 0),
            (m12, 6, 0, Found::Done, 0),
        ] {
            let case = Case { profile, start, most, set: vec![0xEE; 2] };
            case.call(Ok(&Survey { found, looked_at }), random)?;
        }
    }
    Ok(vec![Count::of("samples of surveys", 10)])
}

/// Whole calls, each counted by its outcome or as refused.
pub fn surveys(random: &mut Random) -> Outcome {
    let sets = Sets::of(&Profile { n: 4, k: 2, rows: 2, t: 2, s: 1, edition: 1 });
    let mut surveys = Surveys { sets, tally: Tally::default(), failing: 0, done: 0, open: 0 };
    small_shapes(&mut surveys, random)?;
    every_constant(&mut surveys, random)?;
    larger_shapes(&mut surveys, random)?;
    every_shape(&mut surveys, random)?;
    failing_sets(&mut surveys, random)?;
    every_number(&mut surveys, random)?;
    mixed_calls(&mut surveys, random)?;
    surveys.counts()
}

/// How many sets may be looked at in one call, so that it stays short: the work on a set grows with the cube of kA.
fn affordable(profile: &Profile) -> usize {
    2_000_000 / (profile.k * profile.rows + 20).pow(3) + 2
}

/// Each start up to two past the last set, and none, few, all but one, all or more of the sets that are left, also so
/// many that start and number go to the end of a machine word or past it.
fn every_start(profile: &Profile, surveys: &mut Surveys, random: &mut Random) -> Result<(), String> {
    surveys.sets.turn_to(profile);
    let count = surveys.sets.count();
    for start in 0..=count + 2 {
        let left = count.saturating_sub(start);
        let (few, rest) = (random.between(3, 6), usize::MAX - start);
        let edges = [left.saturating_sub(1), left, left + 1, count, rest, rest.wrapping_add(1), usize::MAX];
        for most in [0, 1, 2, few].into_iter().chain(edges) {
            surveys.fitting(*profile, start, most, random)?;
        }
    }
    Ok(())
}

/// Each start for n = 4 with each t, for n up to 8 with each t for which a set fails and one more.
fn small_shapes(surveys: &mut Surveys, random: &mut Random) -> Result<(), String> {
    for (n, k, rows) in code::all_accepted().into_iter().filter(|&(n, _, _)| n <= 8) {
        for t in 2..=255 {
            let profile = Profile { t, ..random_profile(n, k, rows, random) };
            surveys.sets.turn_to(&profile);
            if n == 4 || t == 255 || !surveys.sets.failing().is_empty() {
                every_start(&profile, surveys, random)?;
            }
        }
    }
    Ok(())
}

/// All with n up to 8, with each t, surveyed whole: on from each failing set to the next, until a survey is done.
fn every_constant(surveys: &mut Surveys, random: &mut Random) -> Result<(), String> {
    for (n, k, rows) in code::all_accepted().into_iter().filter(|&(n, _, _)| n <= 8) {
        for t in 2..=255 {
            whole(&Profile { t, ..random_profile(n, k, rows, random) }, surveys, random)?;
        }
    }
    Ok(())
}

fn whole(profile: &Profile, surveys: &mut Surveys, random: &mut Random) -> Result<(), String> {
    surveys.sets.turn_to(profile);
    let starts = surveys.sets.failing().into_iter().map(|position| position + 1);
    for start in [0].into_iter().chain(starts) {
        surveys.fitting(*profile, start, usize::MAX, random)?;
    }
    Ok(())
}

/// Larger shapes without too many sets, each surveyed whole with a few t.
fn larger_shapes(surveys: &mut Surveys, random: &mut Random) -> Result<(), String> {
    for (n, k, rows) in code::all_accepted().into_iter().filter(|&(n, _, _)| n > 8) {
        for _ in 0..3 {
            let profile = random_profile(n, k, rows, random);
            surveys.sets.turn_to(&profile);
            if surveys.sets.count() <= 10 * affordable(&profile) {
                whole(&profile, surveys, random)?;
            }
        }
    }
    Ok(())
}

/// Each accepted (n, k, A): a few sets from the first on, from any, from the last ones, from past the last; also with
/// buffers for the set that do not fit.
fn every_shape(surveys: &mut Surveys, random: &mut Random) -> Result<(), String> {
    for (n, k, rows) in code::all_accepted() {
        let profile = random_profile(n, k, rows, random);
        surveys.sets.turn_to(&profile);
        let count = surveys.sets.count();
        let any = random.between(0, count);
        let near_end = count - random.between(1, count.min(3));
        for start in [0, 1, any, near_end, count - 1, count, count + 1, count + 256, count + (1 << 32), usize::MAX] {
            let (few, huge) = (random.between(1, affordable(&profile).min(4)), random.one_of(&HUGE));
            let last = if start >= near_end { huge } else { 2 };
            for most in [0, 1, few, last] {
                surveys.fitting(profile, start, most, random)?;
            }
            for length in [k - 1, k + 1, 0, n, 2 * k, k + 256] {
                let most = random.one_of(&[0, 1, few, last]);
                surveys.compare(Case::new(profile, start, most, length, random), random)?;
            }
        }
    }
    Ok(())
}

/// Each accepted (n, k, A) with a t for which a set fails, if one is found soon: the survey comes to that set last, or
/// just not, or goes past it, or starts after it.
fn failing_sets(surveys: &mut Surveys, random: &mut Random) -> Result<(), String> {
    for (n, k, rows) in code::all_accepted() {
        let Some((profile, nodes)) = generator::find_failing(&random_profile(n, k, rows, random), random) else {
            continue;
        };
        surveys.sets.turn_to(&profile);
        let position = surveys.sets.position_of(&nodes);
        for before in 0..=position.min(affordable(&profile)).min(4) {
            for most in [before, before + 1, before + 2, usize::MAX] {
                surveys.fitting(profile, position - before, most, random)?;
            }
        }
        for most in [0, 1, 2] {
            surveys.fitting(profile, position + 1, most, random)?;
        }
        for length in [k - 1, k + 1, 0] {
            surveys.compare(Case::new(profile, position, 1, length, random), random)?;
        }
    }
    Ok(())
}

/// A number of sets to look at with these numbers, huge where few sets are left, or none at all.
fn any_most(profile: &Profile, start: usize, surveys: &mut Surveys, random: &mut Random) -> usize {
    let (huge, affordable) = (random.one_of(&HUGE), affordable(&small_like(profile)));
    let mut left = 0;
    if profile.refusal().is_none() {
        surveys.sets.turn_to(profile);
        left = surveys.sets.count().saturating_sub(start);
    }
    let few = random.between(0, affordable.min(4));
    random.one_of(&[0, 1, few, if left <= affordable { huge } else { few }])
}

fn small_like(profile: &Profile) -> Profile {
    calls::small_like(&Wanted { profile: *profile, lost: 0, recording: Recording::default() }).profile
}

/// All small numbers, and every mixture of refusals 1, 2, 3, 13, 4 and 5, also of none.
fn every_number(surveys: &mut Surveys, random: &mut Random) -> Result<(), String> {
    for (profile, start) in small_and_refused_numbers(random) {
        let k = small_like(&profile).k;
        for length in [k, k - 1, k + 1, 0] {
            let most = any_most(&profile, start, surveys, random);
            surveys.compare(Case::new(profile, start, most, length, random), random)?;
        }
    }
    Ok(())
}

/// Accepted numbers, perhaps some of them replaced by others, and any start and length of the buffer.
fn mixed_calls(surveys: &mut Surveys, random: &mut Random) -> Result<(), String> {
    let accepted: Vec<_> = code::all_accepted().into_iter().filter(|&(n, _, _)| n <= 12).collect();
    for _ in 0..40_000 {
        let (n, k, rows) = random.one_of(&accepted);
        let given = random_profile(n, k, rows, random);
        surveys.sets.turn_to(&given);
        let count = surveys.sets.count();
        let near_end = (count + 2).saturating_sub(random.between(0, 6));
        let (mut profile, mut start) = (given, random.between(0, count));
        start = random.one_of(&[start, near_end]);
        for _ in 0..random.between(0, 2) {
            replace_number(&given, &mut profile, &mut start, random);
        }
        let most = any_most(&profile, start, surveys, random);
        let any = random.between(0, 30);
        let length = random.one_of(&[k, k, k, k, k - 1, k + 1, any]);
        surveys.compare(Case::new(profile, start, most, length, random), random)?;
    }
    Ok(())
}
