//! Bytes and addresses in hexadecimal.

use crate::records::{address, wire};

/// From so many equal bytes on, a list says how many there are: `00*9`.
const RUN: usize = 8;
/// The most bytes that one word of a list stands for.
pub const LONGEST_RUN: usize = 65_535;

/// Bytes in a row, two digits each; a long run of equal ones is one word.
pub fn list(bytes: &[u8]) -> String {
    let runs = bytes.chunk_by(|one, next| one == next);
    let words: Vec<String> = runs.map(run).collect();
    words.join(" ")
}

fn run(equal: &[u8]) -> String {
    let digits = format!("{:02X}", equal[0]);
    if equal.len() < RUN {
        return vec![digits; equal.len()].join(" ");
    }
    let whole = vec![format!("{digits}*{LONGEST_RUN}"); equal.len() / LONGEST_RUN];
    let rest = match equal.len() % LONGEST_RUN {
        0 => None,
        rest => Some(format!("{digits}*{rest}")),
    };
    whole.into_iter().chain(rest).collect::<Vec<_>>().join(" ")
}

/// The bytes of one word of a list: pairs of digits, or one pair and its count.
pub fn bytes(word: &str) -> Option<Vec<u8>> {
    if let Some((digits, count)) = word.split_once('*') {
        let [byte] = pairs(digits)?[..] else {
            return None;
        };
        let count: usize = decimal(count)?;
        return (1..=LONGEST_RUN)
            .contains(&count)
            .then(|| vec![byte; count]);
    }
    pairs(word)
}

/// A number in decimal digits alone, without a sign.
pub fn decimal<N: std::str::FromStr>(word: &str) -> Option<N> {
    let digits = !word.is_empty() && word.bytes().all(|byte| byte.is_ascii_digit());
    digits.then(|| word.parse().ok())?
}

fn pairs(word: &str) -> Option<Vec<u8>> {
    let digits: Option<Vec<u8>> = word.bytes().map(digit).collect();
    let digits = digits?;
    if digits.is_empty() || digits.len() % 2 != 0 {
        return None;
    }
    let pairs = digits.chunks(2);
    Some(pairs.map(|pair| pair[0] << 4 | pair[1]).collect())
}

fn digit(letter: u8) -> Option<u8> {
    let value = char::from(letter).to_digit(16)?;
    u8::try_from(value).ok()
}

/// An address as six pairs with dashes.
pub fn dashed(address: u64) -> String {
    let pairs: Vec<String> = wire(address)
        .iter()
        .map(|byte| format!("{byte:02X}"))
        .collect();
    pairs.join("-")
}

/// The address that six pairs with dashes (or colons) are.
pub fn undashed(word: &str) -> Option<u64> {
    let between = if word.contains(':') { ':' } else { '-' };
    let parts: Option<Vec<Vec<u8>>> = word.split(between).map(pairs).collect();
    let parts = parts?;
    if parts.iter().any(|part| part.len() != 1) {
        return None;
    }
    let wire: [u8; 6] = parts.concat().try_into().ok()?;
    Some(address(wire))
}

#[cfg(test)]
mod tests {
    use super::*;

    #[test]
    fn lists_are_read_back() {
        for count in [0, 1, 7, 8, 9, 1_031, 65_535, 65_536, 131_070, 140_000] {
            let mut some = vec![0xA5; count];
            some.extend([1, 2]);
            let text = list(&some);
            let back: Option<Vec<Vec<u8>>> = text.split(' ').map(bytes).collect();
            assert_eq!(back.unwrap().concat(), some, "{count}");
        }
        assert_eq!(list(&[0; 9]), "00*9");
    }

    #[test]
    fn what_is_no_byte_is_refused() {
        for word in [
            "", "0", "0x", "123", "00*", "00*0", "0000*2", "00*+1", "*3", "00*65536", "é0",
        ] {
            assert_eq!(bytes(word), None, "{word}");
        }
        assert_eq!(bytes("0aFf"), Some(vec![10, 255]));
    }

    #[test]
    fn addresses_are_read_back() {
        assert_eq!(undashed("02-00-00-00-00-0f"), Some(0x0200_0000_000F));
        assert_eq!(undashed("02:00:00:00:00:0F"), Some(0x0200_0000_000F));
        assert_eq!(undashed(&dashed(0xFEFF_FFFF_FF01)), Some(0xFEFF_FFFF_FF01));
        for word in [
            "",
            "B",
            "02-00-00-00-00",
            "02-00-00-00-00-00-01",
            "02-0-00-00-00-01",
            "020000000001",
        ] {
            assert_eq!(undashed(word), None, "{word}");
        }
    }
}
