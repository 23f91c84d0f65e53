//! Ride files as the public description of FIT has them, and what must be listed of a text, computed from the words of the rule and without the library.
#![allow(dead_code)] // each test takes what it needs

/// A header of 12 or 14 bytes that declares so many bytes of data. That of 14 ends with a check of its own.
pub fn header(bytes: u8, declared: u32) -> Vec<u8> {
    let (protocol, profile) = (0x10, 2_078u16.to_le_bytes());
    let mut header = [&[bytes, protocol][..], &profile, &declared.to_le_bytes(), b".FIT"].concat();
    if bytes == 14 {
        header.extend(check(&header));
    }
    header
}

/// A ride: header, data and check.
pub fn ride(bytes: u8, data: &[u8]) -> Vec<u8> {
    let mut ride = [&header(bytes, u32::try_from(data.len()).unwrap())[..], data].concat();
    ride.extend(check(&ride));
    ride
}

/// So many records of a ride, as its data: what a record has, which is the time and the place, then each record.
pub fn records(count: u32) -> Vec<u8> {
    const DEFINITION: [u8; 15] = [0x40, 0, 0, 20, 0, 3, 253, 4, 0x86, 0, 4, 0x85, 1, 4, 0x85];
    let mut data = DEFINITION.to_vec();
    for second in 0..count {
        let values = [1_000_000_000 + second, 0x2153_0000 + 17 * second, 0x0613_0000 + 23 * second];
        data.push(0);
        data.extend(values.iter().flat_map(|value| value.to_le_bytes()));
    }
    data
}

/// The check, two bytes, the low one first: the CRC-16 with the polynomial A001, which begins with 0.
pub fn check(bytes: &[u8]) -> [u8; 2] {
    let mut crc = 0u16;
    for byte in bytes {
        crc ^= u16::from(*byte);
        for _ in 0..8 {
            crc = if crc & 1 == 1 { crc >> 1 ^ 0xa001 } else { crc >> 1 };
        }
    }
    crc.to_le_bytes()
}

/// What is listed of a ride: where it starts, whether it is whole, the bytes of its header, and how many of data are declared.
pub type Listed = (u64, bool, u8, u32);

/// For each `.FIT` at q of at least 8, with byte q-8 equal to 12 or 14 and the header wholly inside the text: q-8, and whether header, data and check end
/// within the text.
pub fn listed(text: &[u8]) -> Vec<Listed> {
    let is_header =
        |q: &usize| &text[*q..q + 4] == b".FIT" && [12, 14].contains(&text[q - 8]) && q - 8 + usize::from(text[q - 8]) <= text.len();
    let judged = |q: usize| {
        let (start, bytes) = (q - 8, text[q - 8]);
        let size = text[q - 4..q].iter().rev().fold(0u32, |size, byte| size << 8 | u32::from(*byte));
        let end = start as u128 + u128::from(bytes) + u128::from(size) + 2;
        (start as u64, end <= text.len() as u128, bytes, size)
    };
    (8..text.len().saturating_sub(3)).filter(is_header).map(judged).collect()
}

/// A small generator of its own, so that every run has the same inputs.
pub struct Random(pub u64);

impl Random {
    pub fn below(&mut self, end: usize) -> usize {
        self.0 ^= self.0 << 13;
        self.0 ^= self.0 >> 7;
        self.0 ^= self.0 << 17;
        ((self.0 >> 20) % end as u64) as usize
    }
}

/// So many pieces of headers, in any order: whole ones, parts of them, and bytes that they begin with.
pub fn pieces_of_headers(random: &mut Random, pieces: usize) -> Vec<u8> {
    let whole = [header(12, 5), header(14, 40), header(12, u32::MAX), header(14, 0)];
    let mut text = Vec::new();
    for _ in 0..pieces {
        let of = &whole[random.below(whole.len())];
        match random.below(6) {
            0 => text.extend(of),
            1 => text.extend(&of[..random.below(of.len())]),
            2 => text.extend(&of[random.below(of.len())..]),
            3 => text.extend(b".FIT"),
            4 => text.extend([12, 14, b'.', 0, 255][..random.below(6)].iter()),
            _ => text.extend(vec![[0, 12, 14][random.below(3)]; random.below(9)]),
        }
    }
    text
}
