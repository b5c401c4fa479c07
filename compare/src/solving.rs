//! Data are looked for by elimination whose encoded array has given strips at given places. So the lost column is had
//! without the rebuild's own way: data that stay free are taken at random, since every array with the strips at the
//! planned places must have the same lost column.

use crate::code::{self, Place, Profile};
use crate::field::{inverse, product, sum};
use crate::random::Random;

/// The lost node's column in an encoded array with these strips at the planned places; nothing if there is none.
pub fn lost_column(profile: &Profile, lost: usize, strips: &[Vec<u8>], random: &mut Random) -> Option<Vec<u8>> {
    let places = profile.planned_places(lost);
    let data = data_with(profile, &places, strips, random)?;
    let array = code::couple(profile, &code::base_of(profile, &data));
    for (&place, strip) in places.iter().zip(strips) {
        assert_eq!(&array[profile.strip_start(place)..][..profile.s], strip, "the solved data miss a strip");
    }
    Some(profile.column_of(&array, lost).to_vec())
}

/// The stored strip of each of these places as a sum of multiples of the kA data strips: the multiples. All rules
/// hold at each byte offset on its own, so data strip m is set to 1 at offset m alone, and one encoding gives all.
pub fn multiples(profile: &Profile, places: &[Place]) -> Vec<Vec<u8>> {
    let symbols = profile.k * profile.rows;
    let units = Profile { s: symbols, ..*profile };
    let mut data = vec![0; units.data_length()];
    for symbol in 0..symbols {
        data[symbol * symbols + symbol] = 1;
    }
    let array = code::couple(&units, &code::base_of(&units, &data));
    places.iter().map(|&place| array[units.strip_start(place)..][..symbols].to_vec()).collect()
}

/// Data whose array has these strips at these places; nothing if no data have.
pub fn data_with(profile: &Profile, places: &[Place], strips: &[Vec<u8>], random: &mut Random) -> Option<Vec<u8>> {
    let (symbols, s) = (profile.k * profile.rows, profile.s);
    let mut equations = multiples(profile, places);
    for (equation, strip) in equations.iter_mut().zip(strips) {
        equation.extend(strip);
    }
    let solved = eliminate(&mut equations, symbols);
    if equations[solved.len()..].iter().any(|equation| equation.iter().any(|&byte| byte != 0)) {
        return None;
    }

    let mut data = random.bytes(symbols * s);
    let free: Vec<usize> = (0..symbols).filter(|symbol| !solved.contains(symbol)).collect();
    for (equation, &symbol) in equations.iter().zip(&solved) {
        for offset in 0..s {
            let known = equation[symbols + offset];
            data[symbol * s + offset] =
                free.iter().fold(known, |rest, &m| sum(rest, product(equation[m], data[m * s + offset])));
        }
    }
    Some(data)
}

/// Elimination over the first `symbols` columns. Gives the symbol that each of the first equations is solved for; it
/// has the multiple 1 there and 0 in all others. The equations past those have no multiples left.
pub fn eliminate(equations: &mut [Vec<u8>], symbols: usize) -> Vec<usize> {
    let mut solved = Vec::new();
    for symbol in 0..symbols {
        let next = solved.len();
        let Some(found) = (next..equations.len()).find(|&at| equations[at][symbol] != 0) else {
            continue;
        };
        equations.swap(next, found);
        let scale = inverse(equations[next][symbol]).expect("the multiple that was found is not 0");
        let pivot: Vec<u8> = equations[next].iter().map(|&byte| product(scale, byte)).collect();
        for equation in equations.iter_mut().filter(|equation| equation[symbol] != 0) {
            let multiple = equation[symbol];
            for (byte, &other) in equation.iter_mut().zip(&pivot) {
                *byte = sum(*byte, product(multiple, other));
            }
        }
        equations[next] = pivot;
        solved.push(symbol);
    }
    solved
}
