//! Every order of calls on one job: a caller that chooses, and a list of choices that is gone through to its end.

use crate::random::Random;
use crate::session::Call;
use crate::talk::{Caller, Told, View};

/// Chooses one of `count` ways.
pub trait Choose {
    fn choose(&mut self, count: usize) -> usize;
}

impl Choose for Random {
    fn choose(&mut self, count: usize) -> usize {
        self.place(count)
    }
}

/// The choices of one session. `advance` goes on to the next session, so that each comes once.
#[derive(Default)]
pub struct Path {
    /// What was chosen, of how many.
    taken: Vec<(usize, usize)>,
    at: usize,
}

impl Path {
    /// The last choice that has a way left takes it; false after the last session.
    pub fn advance(&mut self) -> bool {
        self.at = 0;
        while let Some((chosen, count)) = self.taken.pop() {
            if chosen + 1 < count {
                self.taken.push((chosen + 1, count));
                return true;
            }
        }
        false
    }
}

impl Choose for Path {
    fn choose(&mut self, count: usize) -> usize {
        if self.at == self.taken.len() {
            self.taken.push((0, count));
        }
        self.at += 1;
        self.taken[self.at - 1].0
    }
}

/// Steps, and serves any read at each Waiting, until Done. `odd` times it may make a call that such a caller would not:
/// deliver early, late, twice, with other rows or ahead of the Read turn, or step on while it should wait or stop.
pub struct Explorer<'a, C> {
    choices: &'a mut C,
    odd: usize,
}

impl<'a, C: Choose> Explorer<'a, C> {
    pub fn new(choices: &'a mut C, odd: usize) -> Self {
        Self { choices, odd }
    }
}

impl<C: Choose> Caller for Explorer<'_, C> {
    fn next(&mut self, view: &View) -> Option<Call> {
        let mut ways = usual(view);
        let usual_ways = ways.len();
        if self.odd > 0 {
            ways.extend(unusual(view).into_iter().map(Some));
        }
        let chosen = self.choices.choose(ways.len());
        self.odd -= usize::from(chosen >= usual_ways);
        ways[chosen]
    }
}

/// None is the end of the session.
fn usual(view: &View) -> Vec<Option<Call>> {
    if view.done || (view.waiting && view.in_flight().next().is_none()) {
        vec![None]
    } else if view.waiting {
        view.in_flight().map(Told::delivery).map(Some).collect()
    } else {
        vec![Some(Call::Step)]
    }
}

fn unusual(view: &View) -> Vec<Call> {
    let mut calls = Vec::new();
    if view.waiting || view.done {
        calls.push(Call::Step);
    } else {
        calls.extend(view.in_flight().map(Told::delivery));
    }
    if let Some(told) = view.in_flight().next_back() {
        calls.push(Call::Deliver { read: told.read, rows: told.rows.wrapping_add(1) });
    }
    calls.extend(view.reads.iter().rfind(|told| told.delivered).map(Told::delivery));
    let ahead = view.reads.last().map_or(0, |told| told.read.wrapping_add(1));
    calls.push(Call::Deliver { read: ahead, rows: 1 });
    calls
}

#[cfg(test)]
mod tests {
    use super::*;
    use crate::answer::Answer;
    use crate::job::{Job, Split};
    use crate::plan::Node;
    use crate::side::Turn;
    use crate::talk::{Subject, Talk, talk};
    use crate::testing::Plain;

    #[test]
    fn every_way_comes_once() {
        let mut path = Path::default();
        let mut seen = Vec::new();
        loop {
            let first = path.choose(2);
            let second = if first == 0 { path.choose(3) } else { path.choose(1) };
            seen.push((first, second));
            if !path.advance() {
                break;
            }
        }
        assert_eq!(seen, [(0, 0), (0, 1), (0, 2), (1, 0)]);
    }

    /// The sessions on a pack of three segments, each of one row.
    fn sessions(odd: usize) -> Vec<Talk> {
        let fields = (1..=3).map(|segment| Node::Segment { segment, rows: 1 }).collect();
        let splits = vec![Split::new(0, 1, &[(0, 1)])];
        let subject = Subject::new(Job { slots: 1, plan: Node::Pack(fields), splits }.bytes());
        let mut path = Path::default();
        let mut talks = Vec::new();
        loop {
            talks.push(talk::<Plain, Plain>(&subject, &mut Explorer::new(&mut path, odd)));
            if !path.advance() {
                return talks;
            }
        }
    }

    #[test]
    fn three_reads_have_six_orders() {
        let deliveries = |talk: &Talk| talk.first.calls.iter().filter(|call| **call != Call::Step).copied().collect();
        let orders: Vec<Vec<Call>> = sessions(0).iter().map(deliveries).collect();
        assert_eq!(orders.len(), 6);
        assert!(orders.iter().all(|order| order.len() == 3));
        assert!((1..6).all(|place| !orders[..place].contains(&orders[place])));
    }

    #[test]
    fn one_unusual_call_is_refused_or_not() {
        let talks = sessions(1);
        let with = |number| talks.iter().filter(|talk| talk.first.answers.contains(&Answer::no(number))).count();
        let promptly_served = |talk: &&Talk| talk.first.calls.len() == 3 + 1 + 3 + 1;
        assert!(with(10) > 0 && with(11) > 0);
        assert!(talks.iter().filter(promptly_served).count() >= 6);
        assert!(talks.iter().all(|talk| talk.first.answers.contains(&Answer::Turn(Turn::Done))));
    }
}
