//! A caller with whims: early, late, wrong and repeated deliveries in any order, and steps at any time.

use crate::random::Random;
use crate::session::Call;
use crate::talk::{Caller, Told, View};

/// Which read in flight is served.
#[derive(Clone, Copy)]
enum Order {
    Oldest,
    Newest,
    Any,
}

pub struct Whims {
    random: Random,
    order: Order,
    /// In a hundred: serves at a Waiting, serves as soon as a read is told, serves at any other time.
    at_waiting: u64,
    at_read: u64,
    otherwise: u64,
    /// In a hundred: delivers what is refused.
    wrong: u64,
    calls_left: u64,
    steps_after_done: u64,
}

impl Whims {
    pub fn new(mut random: Random) -> Self {
        let order = random.pick(&[Order::Oldest, Order::Newest, Order::Any, Order::Any]);
        Self {
            order,
            at_waiting: random.pick(&[100, 100, 80]),
            at_read: random.pick(&[0, 0, 30, 100]),
            otherwise: random.pick(&[0, 5, 40]),
            wrong: random.pick(&[0, 0, 5, 25]),
            calls_left: random.pick(&[10, 60, 1500, 1500, 1500]),
            steps_after_done: random.between(0, 2),
            random,
        }
    }

    fn serve(&mut self, view: &View) -> Option<Call> {
        let count = view.in_flight().count();
        let place = match self.order {
            _ if count == 0 => return None,
            Order::Oldest => 0,
            Order::Newest => count - 1,
            Order::Any => self.random.place(count),
        };
        view.in_flight().nth(place).map(Told::delivery)
    }

    /// A read never told, told but delivered, told ahead of its turn, or with other rows.
    fn wrong_delivery(&mut self, view: &View) -> Call {
        let next = view.reads.len() as u32;
        let unknown = self.random.pick(&[next, next + 1, 0, u32::MAX]);
        let told = (!view.reads.is_empty()).then(|| self.random.pick(&view.reads));
        let Told { read, rows, .. } =
            told.filter(|_| self.random.chance(80)).unwrap_or(Told { read: unknown, rows: 1, delivered: false });
        let near = [rows, rows.wrapping_add(1), rows.wrapping_sub(1), rows ^ (1 << 31), 0];
        Call::Deliver { read, rows: self.random.pick(&near) }
    }
}

impl Caller for Whims {
    fn next(&mut self, view: &View) -> Option<Call> {
        self.calls_left = self.calls_left.checked_sub(1)?;
        if self.random.chance(self.wrong) {
            return Some(self.wrong_delivery(view));
        }
        if view.done {
            self.steps_after_done = self.steps_after_done.checked_sub(1)?;
            return Some(Call::Step);
        }
        let serves = if view.waiting {
            self.at_waiting
        } else if view.just_read {
            self.at_read
        } else {
            self.otherwise
        };
        let served = if self.random.chance(serves) { self.serve(view) } else { None };
        served.or(Some(Call::Step))
    }
}
