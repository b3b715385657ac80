//! Bytes spelled as text, as the sources of the rows do it.

use crate::piece::PIECES;

/// The bytes that a text spells, by words between single spaces: `0A1B` is the bytes with these hexadecimal digits;
/// `00*9` is nine times `00`; `P` is the piece of that name; `P@27=04` is that piece with other bytes from place 27 on.
pub fn spelled(text: &str) -> Vec<u8> {
    text.split_ascii_whitespace().flat_map(word).collect()
}

fn word(word: &str) -> Vec<u8> {
    let mut parts = word.split('@');
    let name = parts.next().unwrap();
    let Some(piece) = PIECES.iter().find(|piece| piece.name == name) else {
        return plain(word);
    };
    let mut bytes: Vec<u8> = piece.bytes.split_ascii_whitespace().flat_map(plain).collect();
    for change in parts {
        let (place, digits) = change.split_once('=').unwrap();
        let place = place.parse().unwrap();
        let changed = plain(digits);
        bytes[place..place + changed.len()].copy_from_slice(&changed);
    }
    bytes
}

fn plain(word: &str) -> Vec<u8> {
    let (digits, count) = word.split_once('*').unwrap_or((word, "1"));
    let bytes: Vec<u8> =
        (0..digits.len()).step_by(2).map(|at| u8::from_str_radix(&digits[at..at + 2], 16).unwrap()).collect();
    bytes.repeat(count.parse().unwrap())
}
