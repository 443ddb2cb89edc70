//! Numbers and bytes as values and keys have them. Each value has one spelling.

/// Adds a number: seven bits a byte, the least first.
pub(crate) fn put_number(out: &mut Vec<u8>, mut number: u64) {
    while number >= 128 {
        out.push(number as u8 | 128);
        number >>= 7;
    }
    out.push(number as u8);
}

/// Takes a number from the front. None where none stands there in its one spelling.
pub(crate) fn take_number(bytes: &mut &[u8]) -> Option<u64> {
    let mut number = 0u64;
    for (place, byte) in bytes.iter().take(10).enumerate() {
        let bits = u64::from(byte & 127);
        let shifted = bits << (7 * place);
        if shifted >> (7 * place) != bits {
            return None;
        }
        number |= shifted;
        if byte & 128 == 0 {
            *bytes = &bytes[place + 1..];
            return (bits != 0 || place == 0).then_some(number);
        }
    }
    None
}

/// Takes so many bytes from the front.
pub(crate) fn take<'a>(bytes: &mut &'a [u8], count: usize) -> Option<&'a [u8]> {
    let taken = bytes.get(..count)?;
    *bytes = &bytes[count..];
    Some(taken)
}

/// Adds bytes, their count first.
pub(crate) fn put_bytes(out: &mut Vec<u8>, bytes: &[u8]) {
    put_number(out, bytes.len() as u64);
    out.extend_from_slice(bytes);
}

/// Takes bytes with their count.
pub(crate) fn take_bytes<'a>(bytes: &mut &'a [u8]) -> Option<&'a [u8]> {
    let count = usize::try_from(take_number(bytes)?).ok()?;
    take(bytes, count)
}

/// A number in a key: how many hexadecimal digits follow the first, and the digits. Such texts are ordered as the numbers are.
pub(crate) fn spelled(number: u64) -> String {
    let digits = format!("{number:x}");
    format!("{:x}{digits}", digits.len() - 1)
}

/// The number that a text of a key spells.
pub(crate) fn number_of(text: &str) -> Option<u64> {
    let number = u64::from_str_radix(text.get(1..)?, 16).ok()?;
    (spelled(number) == text).then_some(number)
}

#[cfg(test)]
mod tests {
    use super::*;

    const NUMBERS: [u64; 9] = [0, 1, 15, 16, 127, 128, 300, 1 << 40, u64::MAX];

    #[test]
    fn numbers_have_one_spelling() {
        for number in NUMBERS {
            let mut out = Vec::new();
            put_number(&mut out, number);
            let mut rest = &out[..];
            assert_eq!((take_number(&mut rest), rest.len()), (Some(number), 0));
        }
        for wrong in [&[128][..], &[128, 0], &[255; 10], &[255, 255, 255, 255, 255, 255, 255, 255, 255, 2]] {
            assert_eq!(take_number(&mut &wrong[..]), None);
        }
    }

    #[test]
    fn numbers_of_keys_are_ordered() {
        let texts: Vec<String> = NUMBERS.iter().map(|number| spelled(*number)).collect();
        assert!(texts.windows(2).all(|pair| pair[0] < pair[1]));
        assert!(texts.iter().zip(NUMBERS).all(|(text, number)| number_of(text) == Some(number)));
        for wrong in ["", "0", "1f", "101", "0F", "0g", "+f", "1+f"] {
            assert_eq!(number_of(wrong), None, "{wrong}");
        }
    }
}
