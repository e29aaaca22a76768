//! Numbers modulo P.

pub const P: u32 = 2_147_483_647;

const WIDE: u64 = P as u64;

/// Any 64-bit number modulo P. (2^31 is 1 modulo P, so the high bits are added to the low ones.)
#[inline]
pub fn reduce(x: u64) -> u32 {
    let once = (x & WIDE) + (x >> 31);
    let twice = (once & WIDE) + (once >> 31);
    (if twice >= WIDE { twice - WIDE } else { twice }) as u32
}

#[inline]
pub fn add(a: u32, b: u32) -> u32 {
    reduce(a as u64 + b as u64)
}

#[inline]
pub fn subtract(a: u32, b: u32) -> u32 {
    reduce(a as u64 + WIDE - b as u64)
}

#[inline]
pub fn multiply(a: u32, b: u32) -> u32 {
    reduce(a as u64 * b as u64)
}

/// 1 / a; a is not 0.
pub fn invert(a: u32) -> u32 {
    power(a, P - 2)
}

fn power(base: u32, exponent: u32) -> u32 {
    let (mut result, mut square, mut rest) = (1, base, exponent);
    while rest > 0 {
        if rest & 1 == 1 {
            result = multiply(result, square);
        }
        square = multiply(square, square);
        rest >>= 1;
    }
    result
}
