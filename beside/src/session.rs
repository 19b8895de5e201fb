//! A session of document 01: a job and the calls made on it, to and from bytes, and played on one side.

use crate::answer::Answer;
use crate::records::{self, DELIVERY, Record, STEP};
use crate::side::Side;

#[derive(Clone, Copy, Debug, PartialEq, Eq)]
pub enum Call {
    Step,
    Deliver { read: u32, rows: u32 },
}

impl Call {
    /// A delivery of a read that no scan makes: the port comes to check 12 and, where that passes, to 10. Nothing changes.
    pub const CHECK: Self = Self::Deliver { read: u32::MAX, rows: 0 };
}

#[derive(Clone, Debug, PartialEq, Eq)]
pub struct Session {
    pub job: Vec<u8>,
    pub calls: Vec<Call>,
    /// What stands after the calls and is none. It ends the session and is answered `no 2`.
    pub rest: Vec<u8>,
}

impl Session {
    pub fn new(job: Vec<u8>, calls: Vec<Call>) -> Self {
        let rest = Vec::new();
        Self { job, calls, rest }
    }

    /// The job ends at the first call mark where a record could begin, or with the bytes.
    pub fn read(bytes: &[u8]) -> Self {
        let (_, after) = records::take_while(bytes, |record| !record.is_call());
        let begun = after.starts_with(&STEP) || after.starts_with(&DELIVERY);
        let job_length = if begun { bytes.len() - after.len() } else { bytes.len() };
        let (job, after) = bytes.split_at(job_length);
        let (calls, rest) = records::take_while(after, Record::is_call);
        let calls = calls.iter().map(|record| match record.fields[..] {
            [read, rows] => Call::Deliver { read, rows },
            _ => Call::Step,
        });
        Self { job: job.to_vec(), calls: calls.collect(), rest: rest.to_vec() }
    }

    pub fn bytes(&self) -> Vec<u8> {
        let mut bytes = self.job.clone();
        for call in &self.calls {
            let record = match *call {
                Call::Step => Record::new(STEP, &[]),
                Call::Deliver { read, rows } => Record::new(DELIVERY, &[read, rows]),
            };
            record.write(&mut bytes);
        }
        bytes.extend(&self.rest);
        bytes
    }

    /// What one side answers: to the opening and, if it opens, to each call and to what is none.
    pub fn play<S: Side>(&self) -> Vec<Answer> {
        let (side, opening) = opened::<S>(&self.job);
        let mut answers = vec![opening];
        if let Some(mut side) = side {
            answers.extend(self.calls.iter().map(|call| ask(&mut side, *call)));
            answers.extend((!self.rest.is_empty()).then_some(Answer::no(2)));
        }
        answers
    }
}

pub fn opened<S: Side>(job: &[u8]) -> (Option<S>, Answer) {
    match S::open(job) {
        Ok(side) => (Some(side), Answer::Open),
        Err(refusal) => (None, Answer::No(refusal)),
    }
}

pub fn ask<S: Side>(side: &mut S, call: Call) -> Answer {
    let answer = match call {
        Call::Step => side.step(),
        Call::Deliver { read, rows } => side.deliver(read, rows),
    };
    answer.into()
}

#[cfg(test)]
mod tests {
    use super::*;

    #[test]
    fn a_session_is_read_back() {
        let job = b"SC\x01\0\0\0SG\x01\0\0\0STST".to_vec();
        let calls = vec![Call::Step, Call::Deliver { read: 7, rows: 0x5453 }, Call::Step];
        for rest in [&b""[..], b"D", b"DL\0\0\0\0", b"SC\x01\0\0\0"] {
            let session = Session { job: job.clone(), calls: calls.clone(), rest: rest.to_vec() };
            assert_eq!(Session::read(&session.bytes()), session);
        }
    }

    #[test]
    fn a_job_without_calls_is_all_the_bytes() {
        let bytes = b"SC\x01\0\0\0XXST";
        assert_eq!(Session::read(bytes), Session::new(bytes.to_vec(), Vec::new()));
        assert_eq!(Session::read(b"ST"), Session::new(Vec::new(), vec![Call::Step]));
    }
}
