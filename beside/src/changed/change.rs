//! Bytes of a state that are changed.

use ritsghule::lent;

use crate::random::Random;

/// A byte drawn anew at a place.
#[derive(Clone, Copy, Debug)]
pub struct Change {
    place: usize,
    byte: u8,
}

impl Change {
    pub fn make(&self, state: &mut [u8]) {
        state[self.place] = self.byte;
    }
}

/// The places of the state's bytes that are not 0.
pub fn in_use(state: &[u8]) -> Vec<usize> {
    let bytes = state[..lent::state_len()].iter().enumerate();
    bytes.filter(|(_, byte)| **byte != 0).map(|(place, _)| place).collect()
}

/// 1 to 8 changes: any byte or a small one, anywhere or near a place in use.
pub fn changes(in_use: &[usize], random: &mut Random) -> Vec<Change> {
    let count = random.between(1, 8);
    (0..count).map(|_| change(in_use, random)).collect()
}

fn change(in_use: &[usize], random: &mut Random) -> Change {
    let length = lent::state_len();
    let anywhere = random.place(length);
    let near = (random.pick(in_use) + random.place(4)) % length;
    let place = random.pick(&[anywhere, near]);
    let most = random.pick(&[3, 255]);
    Change { place, byte: random.between(0, most) as u8 }
}
