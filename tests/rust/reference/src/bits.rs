//! Numbers in bytes, packed most significant bit first: each field's bits
//! follow those of the one before.

/// The fields' bytes. Each is a width in bits and a number that fits it; the
/// widths make up whole bytes.
pub fn pack(fields: &[(u32, u128)]) -> Vec<u8> {
    let mut bits = Vec::new();
    for &(width, value) in fields {
        assert!(width == 128 || value >> width == 0, "{value} in {width}");
        bits.extend((0..width).rev().map(|i| (value >> i) & 1 == 1));
    }
    assert!(bits.len().is_multiple_of(8), "{} bits", bits.len());
    bits.chunks(8).map(byte_of).collect()
}

fn byte_of(bits: &[bool]) -> u8 {
    bits.iter()
        .fold(0, |byte, &bit| (byte << 1) | u8::from(bit))
}

/// The number in `width` bits of the bytes, from bit `first` on.
pub fn number_of(bytes: &[u8], first: usize, width: usize) -> u128 {
    (first..first + width).fold(0, |number, i| {
        let bit = (bytes[i / 8] >> (7 - i % 8)) & 1;
        (number << 1) | u128::from(bit)
    })
}
