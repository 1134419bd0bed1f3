//! The check of a snapshot or a delta in plain Rust on bytes: the same rules, as one would write them.
use std::cmp::Ordering;

/// Where the first bad field starts.
pub fn check(delta: bool, bytes: &[u8]) -> Result<(), usize> {
    let (mut at, mut last) = (0, None);
    while at < bytes.len() {
        let (tag, body) = field(&bytes[at..]).ok_or(at)?;
        let (kind, action) = if delta { (tag >> 4, tag & 15) } else { (tag, 1) };
        let key = match (kind, action) {
            (1, 1 | 2) if good_origin(body) => body,
            (2, 1 | 2) if (24..=1048).contains(&body.len()) => body,
            (3, 1 | 2) if body.len() >= 4 && good_providers(body, &body[4..]) => &body[..4],
            (3, 3) if good_update(body) => &body[..4],
            _ => return Err(at),
        };
        if last.is_some_and(|last| (kind, key).cmp(&last) != Ordering::Greater) {
            return Err(at);
        }
        last = Some((kind, key));
        at += 3 + body.len();
    }
    Ok(())
}

fn field(bytes: &[u8]) -> Option<(u8, &[u8])> {
    let [tag, high, low, rest @ ..] = bytes else { return None };
    Some((*tag, rest.get(..usize::from(u16::from_be_bytes([*high, *low])))?))
}

pub fn good_origin(body: &[u8]) -> bool {
    let Ok(body) = <&[u8; 23]>::try_from(body) else { return false };
    let bound = match body[0] {
        4 => 32,
        6 => 128,
        _ => return false,
    };
    let (prefix, max) = (body[17], body[18]);
    let address = u128::from_be_bytes(body[1..17].try_into().expect("16 bytes"));
    prefix <= max && max <= bound && address.checked_shl(prefix.into()).unwrap_or(0) == 0
}

/// Of a body's customer.
fn good_providers(body: &[u8], list: &[u8]) -> bool {
    let numbers = list.chunks_exact(4);
    let whole = numbers.remainder().is_empty() && numbers.len() <= 4096;
    let number = |n: &[u8]| u32::from_be_bytes(n.try_into().expect("4 bytes"));
    let sensible = numbers.len() > 0 && numbers.clone().all(|n| *n != body[..4]);
    whole && sensible && numbers.clone().zip(numbers.skip(1)).all(|(a, b)| number(a) < number(b))
}

fn good_update(body: &[u8]) -> bool {
    let [_, _, _, _, high, low, lists @ ..] = body else { return false };
    let former = 4 * usize::from(u16::from_be_bytes([*high, *low]));
    let Some((former, new)) = lists.split_at_checked(former) else { return false };
    good_providers(body, former) && good_providers(body, new)
}
