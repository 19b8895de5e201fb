//! One random session: its job and its calls, the same for the same seed and number.

use crate::damage::damaged;
use crate::generate;
use crate::limits::at_limit;
use crate::random::Random;
use crate::side::Side;
use crate::spoil::spoiled;
use crate::talk::{Subject, Talk, talk};
use crate::whims::Whims;

/// Any session: most on a job that is accepted, some of these wide or nearly so, the others on a damaged one, one with a run at
/// fault, or near a limit.
pub fn draw<A: Side, B: Side>(seed: u64, number: u64) -> (Subject, Talk) {
    let mut random = Random::new(seed, number);
    let job = match random.between(1, 20) {
        1..=3 => at_limit(&mut random),
        4..=7 => damaged(generate::job(&mut random).bytes(), &mut random),
        8 => spoiled(generate::job(&mut random), &mut random).bytes(),
        9 | 10 => generate::wide_job(&mut random).bytes(),
        _ => generate::job(&mut random).bytes(),
    };
    with_whims::<A, B>(job, random)
}

/// A session on a job near a limit.
pub fn draw_at_limit<A: Side, B: Side>(seed: u64, number: u64) -> (Subject, Talk) {
    let mut random = Random::new(seed, number);
    with_whims::<A, B>(at_limit(&mut random), random)
}

fn with_whims<A: Side, B: Side>(job: Vec<u8>, random: Random) -> (Subject, Talk) {
    let subject = Subject::new(job);
    let talk = talk::<A, B>(&subject, &mut Whims::new(random));
    (subject, talk)
}

#[cfg(test)]
mod tests {
    use std::collections::BTreeSet;

    use super::*;
    use crate::job::WIDE_ROWS;
    use crate::testing::Plain;

    fn session(seed: u64, number: u64) -> Vec<u8> {
        let (subject, talk) = draw::<Plain, Plain>(seed, number);
        talk.session(&subject).bytes()
    }

    #[test]
    fn the_same_seed_and_number_give_the_same_session() {
        for number in 0..100 {
            assert_eq!(session(7, number), session(7, number));
        }
    }

    #[test]
    fn some_sessions_are_on_jobs_that_are_just_wide_or_just_not() {
        let rows = (0..1000).filter_map(|number| draw::<Plain, Plain>(7, number).0.job).map(|job| job.plan.rows());
        let near = rows.filter(|rows| rows.abs_diff(WIDE_ROWS) < 2).count();
        assert!(near > 20, "{near} of 1000");
    }

    #[test]
    fn seeds_and_numbers_give_different_sessions() {
        let sessions: BTreeSet<Vec<u8>> = (0..10).flat_map(|seed| (0..10).map(move |number| session(seed, number))).collect();
        assert!(sessions.len() > 95, "{} of 100 differ", sessions.len());
    }
}
