//! Fields: a tag, a two-byte big-endian length, a body.

/// Writes a field whose body is these parts.
pub fn put(out: &mut Vec<u8>, tag: u8, parts: &[&[u8]]) {
    let length: usize = parts.iter().map(|p| p.len()).sum();
    out.push(tag);
    out.extend(u16::try_from(length).expect("a body is short").to_be_bytes());
    parts.iter().for_each(|p| out.extend_from_slice(p));
}

/// The fields of any bytes, heads included. What is no whole field is one piece, the last.
pub fn pieces(mut bytes: &[u8]) -> Vec<&[u8]> {
    let mut out = Vec::new();
    while !bytes.is_empty() {
        let length = match bytes {
            [_, high, low, rest @ ..] => rest.len().min(usize::from(u16::from_be_bytes([*high, *low]))) + 3,
            _ => bytes.len(),
        };
        let (piece, rest) = bytes.split_at(length);
        out.push(piece);
        bytes = rest;
    }
    out
}

/// The tags and bodies of well-formed bytes.
pub fn fields(bytes: &[u8]) -> impl Iterator<Item = (u8, &[u8])> {
    pieces(bytes).into_iter().map(|p| (p[0], &p[3..]))
}

/// Where the bytes of an update's body part: customer, former providers, new providers.
pub fn split_update(body: &[u8]) -> (&[u8], &[u8], &[u8]) {
    let end = 6 + 4 * usize::from(u16::from_be_bytes([body[4], body[5]]));
    (&body[..4], &body[6..end], &body[end..])
}
