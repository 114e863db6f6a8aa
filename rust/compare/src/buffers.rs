//! Bytes that are compared, and buffers to lend with bytes before and behind them that nobody may write.

use second::generate::Random;

/// How many bytes before and behind a buffer are looked at too.
pub const MARGIN: usize = 32;

/// A buffer of this length between its margins, all bytes of random values.
pub fn random_buffer(random: &mut Random, length: usize) -> Vec<u8> {
    let count = length + 2 * MARGIN;
    let mut bytes: Vec<u8> =
        (0..count.div_ceil(8)).flat_map(|_| random.number().to_le_bytes()).collect();
    bytes.truncate(count);
    bytes
}

/// A buffer of this length between its margins, all bytes of this value.
pub fn filled_buffer(byte: u8, length: usize) -> Vec<u8> {
    vec![byte; length + 2 * MARGIN]
}

/// The bytes between the margins, which are lent.
pub fn inner(bytes: &mut [u8]) -> &mut [u8] {
    let end = bytes.len() - MARGIN;
    &mut bytes[MARGIN..end]
}

/// Asserts that two buffers and their margins are the same, or names the first byte that differs.
pub fn assert_same(found: &[u8], expected: &[u8], about: impl Fn() -> String) {
    assert_eq!(found.len(), expected.len());
    let different = (0..found.len()).find(|&position| found[position] != expected[position]);
    if let Some(position) = different {
        panic!(
            "byte {} of a buffer of {} is {} and not {} for {}",
            position as isize - MARGIN as isize,
            found.len() - 2 * MARGIN,
            found[position],
            expected[position],
            about()
        );
    }
}

/// Asserts that two lists of bytes are the same.
pub fn assert_bytes(found: &[u8], expected: &[u8], about: &str) {
    assert!(found == expected, "{} and not {} for {about}", shown(found), shown(expected));
}

/// Bytes in a message, up to a length that is still read.
pub fn shown(bytes: &[u8]) -> String {
    bytes[..bytes.len().min(30_000)].escape_ascii().to_string()
}

/// The bytes with any byte put in before each of them and at the end, and with any byte in the place of each.
pub fn with_any_byte(bytes: &[u8]) -> impl Iterator<Item = Vec<u8>> + '_ {
    (0..=bytes.len()).flat_map(move |position| {
        let (front, back) = bytes.split_at(position);
        let rest = back.get(1..).unwrap_or_default();
        let changed =
            move |byte| [[front, &[byte], back].concat(), [front, &[byte], rest].concat()];
        (0..=255).flat_map(changed)
    })
}
