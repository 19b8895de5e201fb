//! Jobs for the tests, in document 01's notation: a mark and its fields.

#[allow(dead_code)]
pub mod session;

/// A record: its mark and its fields.
pub type Record<'a> = (&'a str, &'a [u32]);

/// A job's bytes.
pub fn job(records: &[Record]) -> Vec<u8> {
    let mut bytes = Vec::new();
    for (mark, fields) in records {
        bytes.extend(mark.as_bytes());
        bytes.extend(fields.iter().flat_map(|field| field.to_le_bytes()));
    }
    bytes
}

/// Case C1: segments 1 and 2 of 3 and 2 rows, joined; everything kept.
#[allow(dead_code)]
pub fn c1() -> Vec<u8> {
    job(&[
        ("SC", &[1]),
        ("SG", &[1, 3]),
        ("SG", &[2, 2]),
        ("CC", &[2]),
        ("SP", &[0, 5, 1, 0, 5]),
    ])
}

/// One bag of four rows, everything kept.
#[allow(dead_code)]
pub const ONE_BAG: &[Record] = &[("SC", &[1]), ("SG", &[1, 4]), ("SP", &[0, 4, 1, 0, 4])];

/// Where the labels stand in a state, one for each of the 24 nodes: docs/STATE.md.
#[allow(dead_code)]
pub const LABELS: std::ops::Range<usize> = 39_327..39_351;
