// 000 Table 22 (FSPortConfigList), as document 01 judges it: each condition by itself, then 01's
// order over them, and the lowest of all broken offsets.

use super::signature::SHORT;

pub const LENGTH: usize = 48;

/// The elements that an accepted block hands on: offset and number of octets.
const PARAMETERS: [(usize, usize); 26] = [
    (2, 1),  // PortMode
    (3, 1),  // Validation&Backup
    (4, 1),  // I/Q behavior
    (5, 1),  // PortCycleTime
    (6, 2),  // VendorID
    (8, 4),  // DeviceID
    (12, 1), // InputDataLength
    (13, 1), // OutputDataLength
    (14, 4), // FSCP_Authenticity1
    (18, 4), // FSCP_Authenticity2
    (22, 1), // FSP_Port
    (25, 1), // FSP_ProtVersion
    (26, 1), // FSP_ProtMode
    (27, 2), // FSP_WatchdogTime
    (31, 4), // FSP_TechParCRC
    (37, 1), // IO_DescVersion
    (38, 1), // SPDUInLength
    (39, 1), // TotalOfInBits
    (40, 1), // TotalOfInOctets
    (41, 1), // TotalOfInInt16
    (42, 1), // TotalOfInInt32
    (43, 1), // SPDUOutLength
    (44, 1), // TotalOfOutBits
    (45, 1), // TotalOfOutOctets
    (46, 1), // TotalOfOutInt16
    (47, 1), // TotalOfOutInt32
];

/// The offset of each signature, and of the first and the last octet that it covers (000 Tables A.1
/// and A.4). FSP_IO_StructCRC stands before FSP_ProtParCRC, which covers it.
const SIGNATURES: [(usize, usize, usize); 3] = [
    (23, 14, 22), // FSP_AuthentCRC
    (29, 37, 47), // FSP_IO_StructCRC
    (35, 25, 34), // FSP_ProtParCRC
];

/// 01, "Order for a parameter block".
const ORDER: [u8; 8] = [8, 1, 2, 3, 4, 5, 12, 6];

/// The parameters are those of an accepted block, in the order of Table 22, and zeros in a refusal.
#[derive(Clone, Copy, Debug, PartialEq, Eq)]
pub struct Answer {
    pub number: u8,
    pub offset: usize,
    pub parameters: [u32; 26],
}

pub fn judge(octets: &[u8], port: u8) -> Answer {
    for number in ORDER {
        if let Some(offset) = condition(number, octets, port) {
            return Answer { number, offset, parameters: [0; 26] };
        }
    }
    let parameters = PARAMETERS.map(|(offset, count)| element(octets, offset, count));
    Answer { number: 0, offset: 0, parameters }
}

/// Writes the signatures that belong to the other octets.
pub fn sign(octets: &mut [u8; LENGTH]) {
    for (offset, first, last) in SIGNATURES {
        let right = signature(&octets[first..=last]);
        put(octets, offset, 2, right);
    }
}

/// The short signature from seed 0 (000 A.2.3, A.2.7, A.2.9) of at most 14 octets: the long division
/// of signature.rs with the polynomial in one number, since a list is slow over millions of blocks.
pub fn signature(octets: &[u8]) -> u32 {
    let divisor = 1 << SHORT.width | u128::from(SHORT.terms);
    let contents = octets.iter().fold(0, |number, &octet| number << 8 | u128::from(octet));
    let mut dividend = contents << SHORT.width;
    for place in (0..8 * octets.len()).rev() {
        if dividend >> (place + SHORT.width) & 1 == 1 {
            dividend ^= divisor << place;
        }
    }
    dividend as u32
}

/// The number at an offset, most significant octet first.
pub fn element(octets: &[u8], offset: usize, count: usize) -> u32 {
    octets[offset..offset + count].iter().fold(0, |number, &octet| number << 8 | u32::from(octet))
}

pub fn put(octets: &mut [u8; LENGTH], offset: usize, count: usize, number: u32) {
    octets[offset..offset + count].copy_from_slice(&number.to_be_bytes()[4 - count..]);
}

/// The octets of an SPDU that are not process data, and the most that are (000 C 11.4.4, 11.4.7).
pub fn sizes(protocol_mode: u8) -> (u32, u32) {
    if protocol_mode == 1 {
        (4, 3)
    } else {
        (6, 25)
    }
}

/// The offset that goes with the number where its condition holds. The conditions after 1 look at a
/// block of 48 octets.
fn condition(number: u8, octets: &[u8], port: u8) -> Option<usize> {
    match number {
        8 => (port == 0 || port > 8).then_some(0),
        1 => (octets.len() != LENGTH).then_some(0),
        2 => (octets[..2] != [0x80, 0x01]).then_some(0),
        3 => matches!(octets[2], 5..=48 | 52..=96 | 97..=255).then_some(0),
        4 => matches!(octets[2], 0..=4 | 51).then_some(0),
        5 => lowest_broken_field(octets),
        12 => (octets[22] != 0 && octets[22] != port).then_some(0),
        6 => lowest_wrong_signature(octets),
        _ => None,
    }
}

fn lowest_broken_field(octets: &[u8]) -> Option<usize> {
    let fits = [
        (3, octets[3] <= 4),
        (4, [0, 5].contains(&octets[4])),
        (6, element(octets, 6, 2) != 0),
        (8, (1..=16777215).contains(&element(octets, 8, 4))),
        (12, octets[12] & 0xC0 == 0),
        (13, octets[13] & 0xC0 == 0),
        (22, octets[22] != 0),
        (25, octets[25] != 0),
        (26, [1, 2].contains(&octets[26])),
        (27, element(octets, 27, 2) != 0),
        (37, octets[37] == 1),
        (38, length_fits(octets, 12, 38)),
        (39, bits_fit(octets, 39)),
        (43, length_fits(octets, 13, 43)),
        (44, bits_fit(octets, 44)),
    ];
    fits.into_iter().filter(|(_, fits)| !fits).map(|(offset, _)| offset).min()
}

/// The SPDU's length at an offset, with the other data's length elsewhere. The set that describes
/// the process data follows the SPDU's length: bits, their octets, 16-bit and 32-bit integers.
fn length_fits(octets: &[u8], other_offset: usize, offset: usize) -> bool {
    let other = u32::from(octets[other_offset] & 0x3F);
    let length = u32::from(octets[offset]);
    let [in_bits, int16, int32] = [2, 3, 4].map(|place| u32::from(octets[offset + place]));
    let process = in_bits + 2 * int16 + 4 * int32;
    let (safety_code, most_process) = sizes(octets[26]);
    length >= 5
        && length + other <= 32
        && length == safety_code + process
        && process <= most_process
}

fn bits_fit(octets: &[u8], offset: usize) -> bool {
    u32::from(octets[offset]) <= 8 * u32::from(octets[offset + 1])
}

fn lowest_wrong_signature(octets: &[u8]) -> Option<usize> {
    let wrong = |&(offset, first, last): &(usize, usize, usize)| {
        element(octets, offset, 2) != signature(&octets[first..=last])
    };
    SIGNATURES.into_iter().filter(wrong).map(|(offset, _, _)| offset).min()
}
