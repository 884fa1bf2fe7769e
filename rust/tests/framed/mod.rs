//! Stored texts: many in one file, a row with the byte count before each.

/// So many texts at a time.
pub fn groups<const N: usize>(mut rest: &'static [u8]) -> Vec<[&'static [u8]; N]> {
    let mut texts = Vec::new();
    while let Some(end) = rest.iter().position(|&b| b == b'\n') {
        let count = std::str::from_utf8(&rest[..end]).expect("a count").parse().expect("a count");
        let (text, more) = rest[end + 1..].split_at(count);
        texts.push(text);
        rest = more;
    }
    assert!(rest.is_empty() && !texts.is_empty());
    texts.chunks(N).map(|group| group.try_into().expect("so many texts at a time")).collect()
}
