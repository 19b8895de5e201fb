//! Records a little smaller than given ones, whatever they say: also those of a job that is refused.

use super::{lessenings, without};
use crate::records::{self, Record, SPLIT, bytes_of};

/// Records and runs left out, fields lowered, the end cut off.
pub fn smaller_records(bytes: &[u8]) -> Vec<Vec<u8>> {
    let (list, rest) = records::take_while(bytes, |_| true);
    let with_rest = |list: &[Record]| [bytes_of(list), rest.to_vec()].concat();
    let mut jobs: Vec<Vec<u8>> = (0..rest.len()).map(|length| [&bytes_of(&list), &rest[..length]].concat()).collect();
    for place in 0..list.len() {
        jobs.push(with_rest(&without(&list, place)));
        for record in lower_records(&list[place]) {
            let mut changed = list.clone();
            changed[place] = record;
            jobs.push(with_rest(&changed));
        }
    }
    jobs
}

fn lower_records(record: &Record) -> Vec<Record> {
    let mut records = Vec::new();
    if record.mark == SPLIT {
        for run in (3..record.fields.len()).step_by(2) {
            let mut fields = without(&without(&record.fields, run + 1), run);
            fields[2] -= 1;
            records.push(Record { mark: SPLIT, fields });
        }
    }
    for place in 0..record.fields.len() {
        for less in lessenings(record.fields[place]) {
            let mut changed = record.clone();
            changed.fields[place] -= less;
            records.push(changed);
        }
    }
    records
}
