// The signature of 000 Annex D as long division of polynomials over two elements: no register that
// shifts and no table. A polynomial is the list of its coefficients, highest power first.

#[derive(Clone, Copy)]
pub struct Generator {
    pub width: usize,
    /// The terms below the leading one, as 000 Table D.1 prints them.
    pub terms: u32,
}

pub const SHORT: Generator = Generator { width: 16, terms: 0x4EAB };
pub const LONG: Generator = Generator { width: 32, terms: 0xF4ACFB13 };

/// The remainder of the octets followed by `width` zeros, the seed added to the first `width` bits.
pub fn signature(generator: Generator, seed: u32, octets: &[u8]) -> u32 {
    let mut dividend = octet_bits(octets);
    dividend.extend(vec![false; generator.width]);
    add(&mut dividend, &number_bits(seed, generator.width));
    bits_number(&remainder(generator, dividend))
}

/// The same division by numbers, since lists of bits are slow over many SPDUs: one octet after the other is brought down behind the
/// rest, and the divisor is taken off at each of the eight places that this gives.
pub fn signature_by_numbers(generator: Generator, seed: u32, octets: &[u8]) -> u32 {
    let Generator { width, terms } = generator;
    let divisor = 1 << width | u64::from(terms);
    let count = width / 8;
    let seed = &seed.to_be_bytes()[4 - count..];
    let mut rest = 0;
    for place in 0..octets.len() + count {
        let octet = octets.get(place).unwrap_or(&0) ^ seed.get(place).unwrap_or(&0);
        rest = rest << 8 | u64::from(octet);
        for bit in (0..8).rev() {
            if rest >> (width + bit) & 1 == 1 {
                rest ^= divisor << bit;
            }
        }
    }
    rest as u32
}

/// Whether the generator divides a polynomial of at least `width` bits.
pub fn divides(generator: Generator, polynomial: &[bool]) -> bool {
    let remainder = remainder(generator, polynomial.to_vec());
    remainder.iter().all(|&bit| !bit)
}

/// The generator with its leading term.
pub fn divisor(generator: Generator) -> Vec<bool> {
    let mut bits = vec![true];
    bits.extend(number_bits(generator.terms, generator.width));
    bits
}

/// Adds `other` to the first coefficients of `polynomial`.
pub fn add(polynomial: &mut [bool], other: &[bool]) {
    for (bit, &added) in polynomial.iter_mut().zip(other) {
        *bit ^= added;
    }
}

pub fn octet_bits(octets: &[u8]) -> Vec<bool> {
    octets.iter().flat_map(|&octet| number_bits(octet.into(), 8)).collect()
}

pub fn number_bits(number: u32, count: usize) -> Vec<bool> {
    (0..count).rev().map(|power| number >> power & 1 == 1).collect()
}

pub fn bits_number(bits: &[bool]) -> u32 {
    bits.iter().fold(0, |number, &bit| number * 2 + u32::from(bit))
}

fn remainder(generator: Generator, mut dividend: Vec<bool>) -> Vec<bool> {
    let divisor = divisor(generator);
    let quotient_length = dividend.len() - generator.width;
    for place in 0..quotient_length {
        if dividend[place] {
            add(&mut dividend[place..], &divisor);
        }
    }
    dividend.split_off(quotient_length)
}
