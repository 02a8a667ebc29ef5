//! Bytes from base64, in which pictures come.

/// Nothing where it is no base64, with its padding and no stray bit.
pub fn decode(text: &str) -> Option<Vec<u8>> {
    let digits = text.trim_end_matches('=');
    let padding = text.len() - digits.len();
    if !text.len().is_multiple_of(4) || padding > 2 {
        return None;
    }
    let mut bytes = Vec::with_capacity(text.len() / 4 * 3);
    let mut bits: u32 = 0;
    for (place, digit) in digits.bytes().enumerate() {
        bits = bits << 6 | value(digit)?;
        if place % 4 > 0 {
            bytes.push((bits >> (6 - 2 * (place % 4))) as u8);
        }
    }
    let stray = bits & ((1 << (2 * padding)) - 1);
    (stray == 0).then_some(bytes)
}

fn value(digit: u8) -> Option<u32> {
    let value = match digit {
        b'A'..=b'Z' => digit - b'A',
        b'a'..=b'z' => digit - b'a' + 26,
        b'0'..=b'9' => digit - b'0' + 52,
        b'+' => 62,
        b'/' => 63,
        _ => return None,
    };
    Some(u32::from(value))
}

#[cfg(test)]
mod tests {
    use super::decode;

    #[test]
    fn bytes_come_back() {
        for (text, bytes) in [
            ("", &b""[..]),
            ("Zg==", b"f"),
            ("Zm8=", b"fo"),
            ("Zm9v", b"foo"),
            ("Zm9vYg==", b"foob"),
            ("Zm9vYmE=", b"fooba"),
            ("Zm9vYmFy", b"foobar"),
            (
                "AP+/iVBORw0=",
                &[0x00, 0xFF, 0xBF, 0x89, b'P', b'N', b'G', 0x0D],
            ),
            ("////", &[0xFF; 3]),
        ] {
            assert_eq!(decode(text).as_deref(), Some(bytes), "{text}");
        }
    }

    #[test]
    fn what_is_no_base64_is_refused() {
        let words = "Z Zg Zg= Zm9v= Z=== ==== Zg==Zg== Zh== Zm9= Zm-_ é==";
        for text in words.split(' ').chain(["Zm9\n", "Zm 9", " Zg="]) {
            assert_eq!(decode(text), None, "{text}");
        }
    }
}
