//! The network address of method 3.14: its text and its four bytes.

/// What the record keeps for no text.
pub const NO_TEXT: [u8; 4] = [0; 4];

/// The address that a text gives; none if 3.14 does not take the text.
pub fn read(text: &[u8]) -> Option<[u8; 4]> {
    if text.is_empty() {
        return Some(NO_TEXT);
    }
    let address = dotted_decimal(text)?;
    is_multicast(address).then_some(address)
}

fn dotted_decimal(text: &[u8]) -> Option<[u8; 4]> {
    let parts: Option<Vec<u8>> = text.split(|byte| *byte == b'.').map(part).collect();
    parts?.try_into().ok()
}

/// A number from 0 to 255 without leading zeros.
fn part(text: &[u8]) -> Option<u8> {
    let number: u8 = std::str::from_utf8(text).ok()?.parse().ok()?;
    // Written again it is the same text, so it had no sign and no leading zero.
    (number.to_string().as_bytes() == text).then_some(number)
}

/// Whether the first part is from 224 to 239.
pub fn is_multicast(address: [u8; 4]) -> bool {
    (224..=239).contains(&address[0])
}
