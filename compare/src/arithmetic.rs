//! The field's kinds: every product and every inverse.

use std::fmt::Display;

use crate::field;
use crate::library::{self, Answer};
use crate::random::Random;
use crate::{Count, Outcome};

pub fn products(_: &mut Random) -> Outcome {
    let mut cases = 0;
    for a in 0..=255 {
        for b in 0..=255 {
            agree("product", &[a, b], library::product(a, b), field::product(a, b))?;
            cases += 1;
        }
    }
    Ok(vec![Count::of("products", cases)])
}

pub fn inverses(_: &mut Random) -> Outcome {
    let mut cases = 0;
    for a in 0..=255 {
        agree("inverse", &[a], library::inverse(a), inverse_due(field::inverse(a)))?;
        cases += 1;
    }
    Ok(vec![Count::of("inverses", cases)])
}

/// Document 01's M1, M2 and M3, as they are printed there.
pub fn samples(_: &mut Random) -> Outcome {
    agree("sample M1, product", &[128, 128], library::product(128, 128), 19)?;
    agree("sample M2, inverse", &[2], library::inverse(2), inverse_due(Some(142)))?;
    agree("sample M3, product", &[3, 3], library::product(3, 3), 5)?;
    Ok(vec![Count::of("samples of the field", 3)])
}

/// The answer to give for this inverse: 0 with the byte, or, where there is none, 255 with 0.
fn inverse_due(expected: Option<u8>) -> Answer {
    match expected {
        Some(byte) => Answer { number: 0, value: u64::from(byte) },
        None => Answer { number: 255, value: 0 },
    }
}

fn agree<T: PartialEq + Display>(what: &str, of: &[u8], given: T, expected: T) -> Result<(), String> {
    if given == expected {
        return Ok(());
    }
    Err(format!("{what} of {of:?}: the library gives {given}, expected {expected}"))
}
