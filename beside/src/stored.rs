//! A file of sessions with one side's answers, so that another program can be held against them without that side.
//!
//! For each session: the length of its bytes, the bytes, the length of the answers as `turns` prints them, the answers.
//! A length is 32 bits, low byte first. No session opens a wide job: there the turns of another program may be others.

use crate::answer::Answer;
use crate::cases;
use crate::draw::{draw, draw_at_limit};
use crate::exhaustive::jobs;
use crate::explore::Explorer;
use crate::job::Job;
use crate::plan::Node;
use crate::random::Random;
use crate::session::Session;
use crate::side::Side;
use crate::talk::{Subject, talk};
use crate::trees::plans;

/// The file is shorter than this.
const MOST_BYTES: usize = 200_000;
/// Neither part of a session is longer.
const LONGEST_PART: usize = 32 * 1024;
/// Draws for one place before giving up.
const MOST_DRAWS: u64 = 1000;

/// The entries of the list, one after another, as the bytes of the file.
struct List {
    bytes: Vec<u8>,
    sessions: u64,
    wanted: u64,
}

/// C1 to C10, then small sessions, then random ones, then some near a limit, `wanted` together: the same for the same seed.
pub fn list<S: Side>(seed: u64, wanted: u64) -> Result<Vec<u8>, String> {
    let mut list = List { bytes: Vec::new(), sessions: 0, wanted };
    for (subject, talk) in cases::talks::<S, S>() {
        if !list.add::<S>(&talk.session(&subject)) {
            return Err(list.too_many());
        }
    }
    if wanted < list.sessions {
        return Err(format!("a list has {} sessions or more: C1 to C10 come first", list.sessions));
    }
    let opens = |plan: &Node| S::open(&Job { slots: 1, plan: plan.clone(), splits: Vec::new() }.bytes()).is_ok();
    let plans: Vec<Node> = (2..=4).flat_map(|nodes| plans(nodes, 3)).filter(opens).collect();
    list.fill::<S>(wanted / 3, |number| small::<S>(&plans, Random::new(seed, number)))?;
    list.fill::<S>(wanted - wanted / 5, |number| {
        let (subject, talk) = draw::<S, S>(seed, number);
        Session { rest: no_call(number), ..talk.session(&subject) }
    })?;
    list.fill::<S>(wanted, |number| {
        let (subject, talk) = draw_at_limit::<S, S>(seed, number);
        talk.session(&subject)
    })?;
    Ok(list.bytes)
}

/// One of the small sessions that a comparison goes through.
fn small<S: Side>(plans: &[Node], mut random: Random) -> Session {
    let jobs: Vec<Job> = jobs(&plans[random.place(plans.len())]).collect();
    let subject = Subject::new(jobs[random.place(jobs.len())].bytes());
    let talk = talk::<S, S>(&subject, &mut Explorer::new(&mut random, 2));
    talk.session(&subject)
}

/// After some of the sessions something that is no call.
fn no_call(number: u64) -> Vec<u8> {
    match number % 16 {
        0 => b"S".to_vec(),
        1 => b"DL\0\0\0\0\0\0\0".to_vec(),
        2 => b"SG\x01\0\0\0\x01\0\0\0ST".to_vec(),
        _ => Vec::new(),
    }
}

impl List {
    /// Adds what is drawn until there are so many sessions. What has no place in the list is drawn again.
    fn fill<S: Side>(&mut self, until: u64, mut drawn: impl FnMut(u64) -> Session) -> Result<(), String> {
        let mut number = 0;
        let mut refused = 0;
        while self.sessions < until {
            let added = self.add::<S>(&drawn(number));
            number += 1;
            refused = if added { 0 } else { refused + 1 };
            if refused == MOST_DRAWS {
                return Err(self.too_many());
            }
        }
        Ok(())
    }

    fn too_many(&self) -> String {
        format!("{} sessions do not fit into {MOST_BYTES} bytes", self.wanted)
    }

    /// Whether the session opens no wide job and was short enough: a few times the share of each that is still to come.
    fn add<S: Side>(&mut self, session: &Session) -> bool {
        let input = session.bytes();
        // Read back, since a damaged job may have a call mark in it.
        let session = Session::read(&input);
        let answers = session.play::<S>();
        if answers[0] == Answer::Open && Subject::new(session.job).is_wide() {
            return false;
        }
        let answers: String = answers.iter().map(|answer| format!("{answer}\n")).collect();
        let left = MOST_BYTES - self.bytes.len();
        let places = (self.wanted.saturating_sub(self.sessions)).max(1) as usize;
        let room = left.min(8 * left / places);
        let fits = input.len() + answers.len() + 8 < room && input.len().max(answers.len()) <= LONGEST_PART;
        if fits {
            self.sessions += 1;
            for part in [&input[..], answers.as_bytes()] {
                self.bytes.extend((part.len() as u32).to_le_bytes());
                self.bytes.extend(part);
            }
        }
        fits
    }
}

#[cfg(test)]
mod tests {
    use std::collections::BTreeSet;

    use super::*;
    use crate::rust::RustSide;

    /// The parts of the list, by their lengths.
    fn parts(mut bytes: &[u8]) -> Vec<&[u8]> {
        let mut parts = Vec::new();
        while let Some((length, after)) = bytes.split_first_chunk() {
            let (part, rest) = after.split_at(u32::from_le_bytes(*length) as usize);
            parts.push(part);
            bytes = rest;
        }
        parts
    }

    #[test]
    fn the_list_has_every_refusal_and_turn_and_fits() {
        let bytes = list::<RustSide>(1, 300).expect("300 sessions fit");
        assert!(bytes.len() < MOST_BYTES);
        let parts = parts(&bytes);
        assert_eq!(parts.len(), 600);
        assert!(parts.iter().all(|part| part.len() <= LONGEST_PART));
        let answers: String = parts.iter().skip(1).step_by(2).map(|part| String::from_utf8_lossy(part)).collect();
        let seen: BTreeSet<&str> = answers.lines().collect();
        for number in [2, 3, 4, 5, 6, 7, 8, 10, 11] {
            assert!(seen.contains(&format!("no {number}")[..]), "no {number} is missing");
        }
        for number in [17, 18, 19] {
            let runs = seen.iter().filter(|line| line.starts_with(&format!("no {number} "))).count();
            assert!(runs > 1, "no {number}: {runs} runs");
        }
        for turn in ["open", "wait", "done", "read 0 1", "out 0 2 7:0"] {
            assert!(seen.contains(turn), "{turn} is missing");
        }
    }

    #[test]
    fn no_session_opens_a_wide_job() {
        let bytes = list::<RustSide>(1, 300).expect("300 sessions fit");
        let parts = parts(&bytes);
        let wide = parts.chunks_exact(2).filter(|pair| Subject::new(Session::read(pair[0]).job).is_wide());
        let answers: Vec<&[u8]> = wide.map(|pair| pair[1]).collect();
        assert!(!answers.is_empty() && answers.iter().all(|answers| answers.starts_with(b"no ")));
    }

    #[test]
    fn the_list_is_the_same_each_time() {
        assert_eq!(list::<RustSide>(2, 60), list::<RustSide>(2, 60));
        assert_ne!(list::<RustSide>(2, 60), list::<RustSide>(3, 60));
    }

    #[test]
    fn a_list_too_long_or_too_short_is_refused() {
        assert!(list::<RustSide>(1, 1_000_000).is_err());
        assert!(list::<RustSide>(1, 9).is_err());
    }
}
