//! What the programs print alike.

/// 32 bytes to a line, small letters.
pub fn hexadecimal(bytes: &[u8]) -> String {
    let mut text = String::new();
    for line in bytes.chunks(32) {
        for byte in line {
            text.push_str(&format!("{byte:02x}"));
        }
        text.push('\n');
    }
    text
}

/// Each number behind a space.
pub fn items(numbers: &[u64]) -> String {
    numbers.iter().map(|number| format!(" {number}")).collect()
}

/// c starts at 0 and becomes (c * 31 + v) % 4294967296 for each number.
pub fn checksum(numbers: impl Iterator<Item = u64>) -> u64 {
    numbers.fold(0, |c, v| (c * 31 + v) % 4_294_967_296)
}
