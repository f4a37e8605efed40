//! The loading profile by the bytes of a model that the reader accepts, whose expressions are passed over and not read again.

/// `30 k 41 00` behind a byte: the object k.
fn object_behind(byte: u8, bytes: &[u8]) -> Option<u8> {
    match bytes {
        [first, 0x30, object, 0x41, 0x00, ..] if *first == byte => Some(*object),
        _ => None,
    }
}

/// What stands behind an expression.
fn behind(bytes: &[u8]) -> &[u8] {
    let (operands, parts) = match bytes[0] {
        0x20 => (4, 0),
        0x21 | 0x30 | 0x31 | 0x41 => (1, 0),
        0x40 => (9, 0),
        0x28 | 0x2A => (1, 2),
        0x29 | 0x47 | 0x55 | 0x57 => (0, 1),
        0x2B => (0, 3),
        _ => (0, 2),
    };
    (0..parts).fold(&bytes[1 + operands..], |rest, _| behind(rest))
}

/// What stands behind a transition of the profile; nothing if it is another.
fn behind_load(transition: &[u8]) -> Option<&[u8]> {
    let mut rest = &transition[1..];
    let mut required = 0u64;
    while rest[0] == 0x08 {
        if let Some(object) = object_behind(0x54, &rest[1..]) {
            required |= 1 << object;
        }
        rest = behind(&rest[1..]);
    }
    rest = behind(&rest[1..]);
    if rest[0] == 0x10 {
        rest = behind(&rest[1..]);
    }
    let mut removed = None;
    while rest[0] == 0x0A {
        if rest[1] == 0 {
            removed = object_behind(0x43, &rest[2..]);
        }
        rest = behind(&rest[2..]);
    }
    (required >> removed? & 1 == 1).then_some(rest)
}

/// The length that the profile chooses for a model; nothing for one outside.
pub fn length(model: &[u8]) -> Option<u64> {
    let [_, _, 0x02, _, start @ ..] = model else {
        return None;
    };
    let start = u64::from_le_bytes(start[..8].try_into().expect("eight bytes"));
    let mut rest = &model[2..];
    while (0x02..=0x06).contains(&rest[0]) {
        rest = &rest[[10, 4, 6, 3, 5][usize::from(rest[0]) - 2]..];
    }
    while rest[0] == 0x07 {
        rest = behind_load(rest)?;
    }
    let [0x0B, 0x08, 0x55, 0x41, 0x00, next, ..] = rest else {
        return None;
    };
    let ends = ![0x08, 0x0B].contains(next);
    ends.then_some(u64::from(start.count_ones()).max(1))
}
