//! Jobs with damage: bytes changed, records dropped, doubled or swapped, fields changed, the end cut off.

use crate::random::Random;
use crate::records::{self, Record, bytes_of};

/// The bytes with one to three things done to them.
pub fn damaged(mut bytes: Vec<u8>, random: &mut Random) -> Vec<u8> {
    for _ in 0..random.pick(&[1, 1, 2, 3]) {
        bytes = if random.chance(60) { record_damaged(&bytes, random) } else { byte_damaged(bytes, random) };
    }
    bytes
}

/// A byte changed, some bytes added, or the rest cut off.
fn byte_damaged(mut bytes: Vec<u8>, random: &mut Random) -> Vec<u8> {
    if bytes.is_empty() {
        return b"SC".to_vec();
    }
    let at = random.place(bytes.len());
    match random.between(0, 3) {
        0 => bytes[at] = random.next() as u8,
        1 => bytes[at] ^= 1 << random.between(0, 7),
        2 => bytes.truncate(at),
        _ => bytes.extend(random.pick(&[&b"S"[..], b"SP", b"ST", b"DL", b"XX", b"\0\0\0\0"])),
    }
    bytes
}

/// A record left out, doubled or changed for another, or a field changed.
fn record_damaged(bytes: &[u8], random: &mut Random) -> Vec<u8> {
    let (mut list, rest) = records::take_while(bytes, |_| true);
    if !list.is_empty() {
        let at = random.place(list.len());
        let other = random.place(list.len());
        match random.between(0, 6) {
            0 => drop(list.remove(at)),
            1 => list.insert(other, list[at].clone()),
            2 => list.swap(at, other),
            _ => change_field(&mut list[at], random),
        }
    }
    let mut bytes = bytes_of(&list);
    bytes.extend(rest);
    bytes
}

fn change_field(record: &mut Record, random: &mut Random) {
    if !record.fields.is_empty() {
        let at = random.place(record.fields.len());
        let field = &mut record.fields[at];
        let near = [field.wrapping_add(1), field.wrapping_sub(1), *field ^ (1 << 31)];
        *field = random.pick(&[near[0], near[0], near[1], near[1], near[2], 0, 1, u32::MAX]);
    }
}
