//! The field of document 01: bytes as polynomials over two elements, reduced by x^8+x^4+x^3+x^2+1.
//! No tables: a product is worked out bit by bit and an inverse is looked for.

/// x^8+x^4+x^3+x^2+1.
const POLYNOMIAL: u16 = 0x11D;

/// Adding is exclusive or, so subtracting is too.
pub fn sum(a: u8, b: u8) -> u8 {
    a ^ b
}

pub fn product(a: u8, b: u8) -> u8 {
    let mut unreduced = 0u16;
    for bit in 0..8 {
        let term = u16::from(b >> bit & 1);
        unreduced ^= (u16::from(a) << bit) * term;
    }
    for bit in (8..15).rev() {
        let term = unreduced >> bit & 1;
        unreduced ^= (POLYNOMIAL << (bit - 8)) * term;
    }
    unreduced as u8
}

/// The byte whose product with `a` is 1, if there is one.
pub fn inverse(a: u8) -> Option<u8> {
    (0..=255).find(|&b| product(a, b) == 1)
}
