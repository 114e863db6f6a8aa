//! The words of lines: qualifiers, kinds and operations, named in capitals and read in either case.

/// A field with its small letters as capitals: it spells the word that this names.
///
/// Only the 26 letters of ASCII have two cases; every other byte stays as it is.
pub fn capitals(field: &[u8]) -> Vec<u8> {
    field.to_ascii_uppercase()
}
