//! Records: a two-byte mark and its fields, 32 bits each, low byte first. Jobs and calls are both made of them.

pub const SLOTS: [u8; 2] = *b"SC";
pub const SEGMENT: [u8; 2] = *b"SG";
pub const CONCAT: [u8; 2] = *b"CC";
pub const PACK: [u8; 2] = *b"PK";
pub const SPLIT: [u8; 2] = *b"SP";
pub const STEP: [u8; 2] = *b"ST";
pub const DELIVERY: [u8; 2] = *b"DL";

#[derive(Clone, Debug, PartialEq, Eq)]
pub struct Record {
    pub mark: [u8; 2],
    pub fields: Vec<u32>,
}

impl Record {
    pub fn new(mark: [u8; 2], fields: &[u32]) -> Self {
        let fields = fields.to_vec();
        Self { mark, fields }
    }

    pub fn write(&self, bytes: &mut Vec<u8>) {
        bytes.extend(self.mark);
        for field in &self.fields {
            bytes.extend(field.to_le_bytes());
        }
    }

    pub fn is_call(&self) -> bool {
        self.mark == STEP || self.mark == DELIVERY
    }
}

pub fn bytes_of(records: &[Record]) -> Vec<u8> {
    let mut bytes = Vec::new();
    for record in records {
        record.write(&mut bytes);
    }
    bytes
}

/// The record at the front and its length; none where the mark is unknown or the record is cut short.
pub fn first(bytes: &[u8]) -> Option<(Record, usize)> {
    let mark: [u8; 2] = bytes.get(..2)?.try_into().ok()?;
    let mut count = match mark {
        STEP => 0,
        SLOTS | CONCAT | PACK => 1,
        SEGMENT | DELIVERY => 2,
        SPLIT => 3,
        _ => return None,
    };
    if mark == SPLIT {
        let runs = bytes.get(10..14)?.try_into().ok()?;
        count += 2 * u64::from(u32::from_le_bytes(runs));
    }
    let length = usize::try_from(2 + 4 * count).ok()?;
    let fields = bytes.get(2..length)?.chunks_exact(4);
    let fields = fields.map(|field| u32::from_le_bytes([field[0], field[1], field[2], field[3]]));
    let record = Record { mark, fields: fields.collect() };
    Some((record, length))
}

/// All whole records from the front for which `wanted` holds, and what is left over.
pub fn take_while(bytes: &[u8], wanted: impl Fn(&Record) -> bool) -> (Vec<Record>, &[u8]) {
    let mut records = Vec::new();
    let mut rest = bytes;
    while let Some((record, length)) = first(rest).filter(|(record, _)| wanted(record)) {
        records.push(record);
        rest = &rest[length..];
    }
    (records, rest)
}

#[cfg(test)]
mod tests {
    use super::*;

    #[test]
    fn a_record_is_read_back() {
        let split = Record::new(SPLIT, &[0, 9, 2, 0, 1, 4, 5]);
        let bytes = bytes_of(&[split.clone(), Record::new(STEP, &[])]);
        assert_eq!(first(&bytes), Some((split, 30)));
        assert_eq!(first(&bytes[30..]), Some((Record::new(STEP, &[]), 2)));
    }

    #[test]
    fn a_record_cut_short_is_none() {
        let bytes = bytes_of(&[Record::new(SPLIT, &[0, 9, u32::MAX, 0, 1])]);
        assert_eq!(first(&bytes), None);
        assert_eq!(first(b"SG\x01\x00\x00\x00\x01\x00\x00"), None);
        assert_eq!(first(b"XX\x01\x00\x00\x00"), None);
        assert_eq!(first(b"S"), None);
    }
}
