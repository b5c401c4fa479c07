//! The library under test: its C functions, and safe calls that lend buffers with guard bytes around them.

use crate::code::{Profile, Refusal};
use crate::download::{Recording, Wanted};
use crate::generator::{Found, Survey};
use crate::random::Random;

extern "C" {
    fn whaupfield_encode(
        n: usize,
        k: usize,
        a: usize,
        t: usize,
        s: usize,
        edition: usize,
        data: *const u8,
        data_len: usize,
        array: *mut u8,
        array_len: usize,
    ) -> u64;
    fn whaupfield_plan(
        n: usize,
        k: usize,
        a: usize,
        t: usize,
        s: usize,
        edition: usize,
        lost: usize,
        places: *mut u8,
        places_len: usize,
    ) -> u64;
    fn whaupfield_write_bundle(
        n: usize,
        k: usize,
        a: usize,
        t: usize,
        s: usize,
        edition: usize,
        lost: usize,
        scenario: u32,
        run: u16,
        array: *const u8,
        array_len: usize,
        bundle: *mut u8,
        bundle_len: usize,
    ) -> u64;
    fn whaupfield_rebuild(
        n: usize,
        k: usize,
        a: usize,
        t: usize,
        s: usize,
        edition: usize,
        lost: usize,
        scenario: u32,
        run: u16,
        bundle: *const u8,
        bundle_len: usize,
        column: *mut u8,
        column_len: usize,
    ) -> u64;
    fn whaupfield_read_back(
        n: usize,
        k: usize,
        a: usize,
        t: usize,
        s: usize,
        edition: usize,
        nodes: *const u8,
        nodes_len: usize,
        columns: *const u8,
        columns_len: usize,
        data: *mut u8,
        data_len: usize,
    ) -> u64;
    fn whaupfield_survey(
        n: usize,
        k: usize,
        a: usize,
        t: usize,
        s: usize,
        edition: usize,
        start: usize,
        most: usize,
        set: *mut u8,
        set_len: usize,
    ) -> u64;
    fn whaupfield_product(a: u8, b: u8) -> u8;
    fn whaupfield_inverse(a: u8) -> u64;
}

/// What a call answers: 0 or the refusal's number in the low byte, the value above it.
#[derive(Clone, Copy, PartialEq, Debug)]
pub struct Answer {
    pub number: u8,
    pub value: u64,
}

impl std::fmt::Display for Answer {
    fn fmt(&self, to: &mut std::fmt::Formatter) -> std::fmt::Result {
        write!(to, "{} with {}", self.number, self.value)
    }
}

impl Answer {
    fn from_word(word: u64) -> Answer {
        Answer { number: word as u8, value: word >> 8 }
    }

    /// The answer to give for this value on success, or this refusal.
    pub fn due(expected: Result<usize, Refusal>) -> Answer {
        match expected {
            Ok(value) => Answer { number: 0, value: value as u64 },
            Err(refusal) => Answer { number: refusal.number(), value: refusal.index() as u64 },
        }
    }
}

/// What a survey answers: 0 or the refusal's number in bits 0 to 7, the outcome in bits 8 and 9 (1 failing, 2 done, 3
/// open), the failing position in bits 10 to 31, the number of sets looked at in the bits above.
#[derive(Clone, Copy, PartialEq, Debug)]
pub struct SurveyAnswer {
    number: u8,
    outcome: u8,
    position: u64,
    looked_at: u64,
}

impl std::fmt::Display for SurveyAnswer {
    fn fmt(&self, to: &mut std::fmt::Formatter) -> std::fmt::Result {
        let SurveyAnswer { number, outcome, position, looked_at } = self;
        write!(to, "{number} with outcome {outcome}, position {position}, {looked_at} looked at")
    }
}

impl SurveyAnswer {
    fn from_word(word: u64) -> SurveyAnswer {
        let (outcome, position) = ((word >> 8 & 3) as u8, word >> 10 & 0x3F_FFFF);
        SurveyAnswer { number: word as u8, outcome, position, looked_at: word >> 32 }
    }

    /// The answer to give for this survey, or this refusal, which comes with zeros.
    pub fn due(expected: Result<&Survey, Refusal>) -> SurveyAnswer {
        let (number, outcome, position, looked_at) = match expected {
            Err(refusal) => (refusal.number(), 0, 0, 0),
            Ok(Survey { found: Found::Done, looked_at }) => (0, 2, 0, *looked_at),
            Ok(Survey { found: Found::Failing { position, .. }, looked_at }) => (0, 1, *position, *looked_at),
            Ok(Survey { found: Found::Open, looked_at }) => (0, 3, 0, *looked_at),
        };
        SurveyAnswer { number, outcome, position: position as u64, looked_at: looked_at as u64 }
    }
}

/// The guard bytes on each side of a lent buffer: more than a strip.
const GUARD: usize = 640;

/// A buffer to lend: it lies inside a larger allocation of random bytes, at any alignment.
pub struct Lent {
    room: Vec<u8>,
    before: Vec<u8>,
    start: usize,
    length: usize,
}

impl Lent {
    pub fn new(bytes: &[u8], random: &mut Random) -> Lent {
        let start = GUARD + random.between(0, 15);
        let mut room = random.bytes(start);
        room.extend_from_slice(bytes);
        room.extend(random.bytes(GUARD));
        Lent { before: room.clone(), room, start, length: bytes.len() }
    }

    pub fn bytes(&self) -> &[u8] {
        &self.room[self.start..self.start + self.length]
    }

    /// Nothing, or what to say of the first byte changed in the buffer or around it.
    pub fn change(&self) -> Option<String> {
        self.change_outside(0)
    }

    /// The same of the bytes around the buffer alone.
    pub fn change_around(&self) -> Option<String> {
        self.change_outside(self.length)
    }

    /// The same of all bytes but the buffer's first `written`.
    pub fn change_outside(&self, written: usize) -> Option<String> {
        let past = self.start + written..self.room.len();
        self.first_change(0..self.start).or_else(|| self.first_change(past))
    }

    fn first_change(&self, range: std::ops::Range<usize>) -> Option<String> {
        if self.room[range.clone()] == self.before[range.clone()] {
            return None;
        }
        let at = range.into_iter().find(|&at| self.room[at] != self.before[at])?;
        let position = at as isize - self.start as isize;
        Some(format!("its byte {position} of {} was {:02x} and is {:02x}", self.length, self.before[at], self.room[at]))
    }

    /// Also for a buffer that is lent for reading alone, so that a write to it is seen.
    fn pointer(&mut self) -> *mut u8 {
        self.room[self.start..].as_mut_ptr()
    }
}

pub fn encode(profile: &Profile, data: &mut Lent, array: &mut Lent) -> Answer {
    let Profile { n, k, rows, t, s, edition } = *profile;
    // Both pointers are to live bytes of the lengths given, in allocations apart.
    let word = unsafe {
        whaupfield_encode(n, k, rows, t, s, edition, data.pointer(), data.length, array.pointer(), array.length)
    };
    Answer::from_word(word)
}

pub fn plan(profile: &Profile, lost: usize, places: &mut Lent) -> Answer {
    let Profile { n, k, rows, t, s, edition } = *profile;
    // The pointer is to live bytes of the length given.
    let word = unsafe { whaupfield_plan(n, k, rows, t, s, edition, lost, places.pointer(), places.length) };
    Answer::from_word(word)
}

pub fn write_bundle(wanted: &Wanted, array: &mut Lent, bundle: &mut Lent) -> Answer {
    let Wanted { profile: Profile { n, k, rows, t, s, edition }, lost, recording: Recording { scenario, run } } =
        *wanted;
    let (from, to) = (array.pointer(), bundle.pointer());
    // Both pointers are to live bytes of the lengths given, in allocations apart.
    let word = unsafe {
        whaupfield_write_bundle(n, k, rows, t, s, edition, lost, scenario, run, from, array.length, to, bundle.length)
    };
    Answer::from_word(word)
}

pub fn rebuild(wanted: &Wanted, bundle: &mut Lent, column: &mut Lent) -> Answer {
    let Wanted { profile: Profile { n, k, rows, t, s, edition }, lost, recording: Recording { scenario, run } } =
        *wanted;
    let (from, to) = (bundle.pointer(), column.pointer());
    // Both pointers are to live bytes of the lengths given, in allocations apart.
    let word = unsafe {
        whaupfield_rebuild(n, k, rows, t, s, edition, lost, scenario, run, from, bundle.length, to, column.length)
    };
    Answer::from_word(word)
}

pub fn read_back(profile: &Profile, nodes: &mut Lent, columns: &mut Lent, data: &mut Lent) -> Answer {
    let Profile { n, k, rows, t, s, edition } = *profile;
    let (list, from, to) = (nodes.pointer(), columns.pointer(), data.pointer());
    // All three pointers are to live bytes of the lengths given, in allocations apart.
    let word = unsafe {
        whaupfield_read_back(n, k, rows, t, s, edition, list, nodes.length, from, columns.length, to, data.length)
    };
    Answer::from_word(word)
}

pub fn survey(profile: &Profile, start: usize, most: usize, set: &mut Lent) -> SurveyAnswer {
    let Profile { n, k, rows, t, s, edition } = *profile;
    // The pointer is to live bytes of the length given.
    let word = unsafe { whaupfield_survey(n, k, rows, t, s, edition, start, most, set.pointer(), set.length) };
    SurveyAnswer::from_word(word)
}

pub fn product(a: u8, b: u8) -> u8 {
    unsafe { whaupfield_product(a, b) }
}

pub fn inverse(a: u8) -> Answer {
    Answer::from_word(unsafe { whaupfield_inverse(a) })
}
