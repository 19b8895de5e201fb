//! The C functions of `bindings/c/ritsghule.h`.

/// How many numbers a turn has.
pub(crate) const TURN_LEN: usize = 12;

pub(crate) const READ: u32 = 1;
pub(crate) const OUTPUT: u32 = 2;
pub(crate) const WAITING: u32 = 3;
pub(crate) const DONE: u32 = 4;

extern "C" {
    pub(crate) fn ritsghule_state_len() -> usize;
    pub(crate) fn ritsghule_open(
        job: *const u8,
        job_len: usize,
        state: *mut u8,
        state_len: usize,
        run: *mut u32,
    ) -> u8;
    pub(crate) fn ritsghule_step(
        state: *mut u8,
        state_len: usize,
        turn: *mut u32,
        turn_len: usize,
    ) -> u8;
    pub(crate) fn ritsghule_deliver(
        state: *mut u8,
        state_len: usize,
        read: u32,
        rows: u32,
        turn: *mut u32,
        turn_len: usize,
    ) -> u8;
}
