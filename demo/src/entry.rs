//! The bytes of the entries that a controller sends.

/// A command; a method is its level times 65,536 plus its index.
pub fn command(handle: u32, target: u32, method: u32, count: u8, parameters: &[u8]) -> Vec<u8> {
    let size = 17 + parameters.len() as u32;
    let mut bytes = numbers([size, handle, target, method]);
    bytes.push(count);
    bytes.extend(parameters);
    bytes
}

/// What names a subscription, and all that 3.2 takes: the emitter and its event, the subscriber's object and method.
pub fn naming(emitter: u32, event: u32, object: u32, method: u32) -> Vec<u8> {
    numbers([emitter, event, object, method])
}

/// The parameters of 3.1: the name, the context, mode 1 and two zeros.
pub fn adding(name: &[u8], context: &[u8]) -> Vec<u8> {
    [name, &blob(context), &[1, 0, 0]].concat()
}

/// Bytes behind their 2-byte count.
pub fn blob(bytes: &[u8]) -> Vec<u8> {
    let count = bytes.len() as u16;
    [&count.to_be_bytes(), bytes].concat()
}

fn numbers(numbers: [u32; 4]) -> Vec<u8> {
    numbers.into_iter().flat_map(u32::to_be_bytes).collect()
}

#[cfg(test)]
mod tests {
    use super::*;

    #[test]
    fn a_command_begins_with_its_size() {
        let fields = [1, 2, 3, 4, 5, 6, 7, 8, 0, 4, 0, 2, 1];
        let bytes = command(0x0102_0304, 0x0506_0708, 0x0004_0002, 1, &[2]);
        assert_eq!(bytes, [&[0, 0, 0, 18], &fields[..], &[2]].concat());
        let long = command(1, 2, 3, 1, &[7; 300]);
        assert_eq!(long[..4], [0, 0, 1, 61]);
        assert_eq!(long.len(), 317);
    }

    #[test]
    fn a_context_stands_behind_its_count() {
        let name = naming(1, 2, 3, 4);
        assert_eq!(name, [0, 0, 0, 1, 0, 0, 0, 2, 0, 0, 0, 3, 0, 0, 0, 4]);
        assert_eq!(adding(&name, &[])[16..], [0, 0, 1, 0, 0]);
        assert_eq!(adding(&name, &[8, 9])[16..], [0, 2, 8, 9, 1, 0, 0]);
        assert_eq!(blob(&[0; 258])[..2], [1, 2]);
    }
}
