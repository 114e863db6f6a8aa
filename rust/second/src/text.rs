//! Texts of lines, which `place`, a session and a scheme file are parted into alike.

/// The lines of a text; what follows the last line feed counts if it is not empty.
pub fn lines(text: &[u8]) -> impl Iterator<Item = &[u8]> {
    let with_line_feeds = text.split_inclusive(|&byte| byte == b'\n');
    with_line_feeds.map(|line| line.strip_suffix(b"\n").unwrap_or(line))
}
